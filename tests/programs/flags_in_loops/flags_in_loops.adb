with Ada.Text_IO; use Ada.Text_IO;
procedure Flags_In_Loops is
   function Argument return Integer is
   begin
      Put_Line ("argument");
      return 1;
   end Argument;
begin
   for I in 1 .. 2 loop
      declare
         --  It has a body again in each turn, and none before.
         function Later (A : Integer) return Integer;

         function Early (Turn : Integer) return Integer is
         begin
            if Turn = 2 then
               return Later (Argument);
            end if;
            return 0;
         end Early;

         X : Integer := Early (I);

         function Later (A : Integer) return Integer is
         begin
            return A + 1;
         end Later;
      begin
         Put_Line ("turn" & Integer'Image (X) & Integer'Image (Later (Argument)));
      end;
   end loop;
end Flags_In_Loops;
