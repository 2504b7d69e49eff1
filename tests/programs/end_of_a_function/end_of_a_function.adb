with Ada.Text_IO; use Ada.Text_IO;
procedure End_Of_A_Function is
   function Ack (A, B : Natural) return Natural is
   begin
      if A = 0 then return B + 1; end if;
      if B = 0 then return Ack (A - 1, 1); end if;
      return Ack (A - 1, Ack (A, B - 1));
   end Ack;
   function NoEnd (X : Integer) return Integer is
   begin
      while X > 0 loop
         if X = 3 then return 1; end if;
         exit;
      end loop;
   end NoEnd;
begin
   Put_Line (Natural'Image (Ack (2, 3)));
   Put_Line (Integer'Image (NoEnd (3)));
   Put_Line (Integer'Image (NoEnd (2)));
end End_Of_A_Function;
