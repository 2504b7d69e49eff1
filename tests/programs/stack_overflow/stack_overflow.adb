with Ada.Text_IO; use Ada.Text_IO;
procedure Stack_Overflow is
   Depth : Natural := 0;

   procedure Deeper is
      Kept : Integer;
   begin
      Depth := Depth + 1;
      Kept := Depth;
      if Depth mod 1_000 = 0 then
         Put_Line ("depth" & Natural'Image (Depth));
      end if;
      Deeper;
      Depth := Kept;
   end Deeper;
begin
   Deeper;
end Stack_Overflow;
