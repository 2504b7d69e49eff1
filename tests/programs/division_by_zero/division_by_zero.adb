with Ada.Text_IO; use Ada.Text_IO;
procedure Division_By_Zero is
   function Quotient (A, B : Integer) return Integer is
   begin
      return A / B;
   end Quotient;
begin
   for I in reverse -2 .. 2 loop
      if I /= 0 and then Quotient (10, I) > 0 then
         Put_Line (Integer'Image (I) & " goes" & Integer'Image (Quotient (10, I)) & " times into 10");
      elsif I = 0 or else Quotient (10, I) < -5 then
         Put_Line (Integer'Image (I) & " is left out");
      end if;
   end loop;
   Put_Line (Integer'Image (Quotient (1, 0)));
end Division_By_Zero;
