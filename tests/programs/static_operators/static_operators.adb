with Ada.Text_IO; use Ada.Text_IO;

procedure Static_Operators is
   --  Named numbers are static; what they are is printed
   Negated_Modulus : constant := -(7 mod 3);
   Negated_Too     : constant := -7 mod 3;
   Modulus         : constant := (-7) mod 3;
   Below           : constant := 7 mod (-3);
   Remainder       : constant := (-7) rem 3;
   Quotient        : constant := (-7) / 3;
   Odd_Power       : constant := (-1) ** 1001;
   Least           : constant := -9223372036854775807 - 1;
   No_Remainder    : constant := Least rem (-1);
   Large           : constant := 2 ** 62;
   Qualified       : constant := Integer'(5);
   Position        : constant := Boolean'Pos (Boolean'Val (1));

   Inside   : constant Boolean := 1 in 0 .. 2;
   Outside  : constant Boolean := 1 not in 0 .. 2;
   Short    : constant Boolean := False and then 1 / 0 = 1;
   Shorter  : constant Boolean := True or else 1 / 0 = 1;
   Is_Large : constant Boolean := Large = 4611686018427387904;

   A, B, C, N : Integer;

   procedure Show (X : Integer) is
   begin
      Put_Line (Integer'Image (X));
   end Show;

   procedure Show (X : Boolean) is
   begin
      Put_Line (Boolean'Image (X));
   end Show;
begin
   Show (Negated_Modulus);
   Show (Negated_Too);
   Show (Modulus);
   Show (Below);
   Show (Remainder);
   Show (Quotient);
   Show (Odd_Power);
   Show (No_Remainder);
   Show (Qualified);
   Show (Position);
   Show (Inside);
   Show (Outside);
   Show (Short);
   Show (Shorter);
   Show (Is_Large);
   Show (True and False);
   Show (True or False);
   Show (True xor True);
   Show (not True);
   Show (2 = 3);
   Show (2 /= 3);
   Show (2 < 3);
   Show (3 <= 3);
   Show (2 > 3);
   Show (3 >= 3);
   A := 7;
   B := 2;
   C := 3;
   N := 4;
   --  Operators of one level lean to the left; the levels of ARM 4.5
   Show (A - B + C);
   Show (A / B * C);
   Show (-A * B ** N mod 5 + C);
   Show (abs (-A) rem C);
   Show (A - B < C + N and then not (A in B .. C));
end Static_Operators;
