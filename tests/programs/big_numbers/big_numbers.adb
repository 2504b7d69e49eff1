with Ada.Text_IO; use Ada.Text_IO;
with Naturals; use Naturals;
procedure Big_Numbers is
   Factorial : Big := From (1);
   Power     : Big := From (1);
   A, B, C   : Big;
begin
   for N in 1 .. 25 loop
      Factorial := Product (Factorial, From (N));
   end loop;
   Put_Line ("25! =");
   Print (Factorial);
   for N in 1 .. 100 loop
      Power := Sum (Power, Power);
   end loop;
   Put_Line ("2 ** 100 =");
   Print (Power);
   Put_Line ("digits sum up to" & Natural'Image (Digit_Sum (Power)));
   A := From (0);
   B := From (1);
   for N in 2 .. 100 loop
      C := Sum (A, B);
      A := B;
      B := C;
   end loop;
   Print (B);
   Put_Line (Boolean'Image (Product (From (12_345), From (54_321)) = From (670_592_745)));
end Big_Numbers;
