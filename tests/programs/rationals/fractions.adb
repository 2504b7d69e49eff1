with Ada.Text_IO; use Ada.Text_IO;
package body Fractions is
   function Divisor (A, B : Natural) return Natural is
   begin
      if B = 0 then
         return A;
      else
         return Divisor (B, A mod B);
      end if;
   end Divisor;

   function Make (Top, Bottom : Integer) return Fraction is
      Common : constant Natural := Divisor (abs Top, abs Bottom);
      Result : Fraction;
   begin
      if Bottom < 0 then
         Result := (-(Top / Common), -(Bottom / Common));
      else
         Result := (Top / Common, Bottom / Common);
      end if;
      return Result;
   end Make;

   function Sum (A, B : Fraction) return Fraction is
   begin
      return Make (A.Top * B.Bottom + B.Top * A.Bottom, A.Bottom * B.Bottom);
   end Sum;

   function Difference (A, B : Fraction) return Fraction is
   begin
      return Sum (A, Make (-B.Top, B.Bottom));
   end Difference;

   function Product (A, B : Fraction) return Fraction is
   begin
      return Make (A.Top * B.Top, A.Bottom * B.Bottom);
   end Product;

   function Quotient (A, B : Fraction) return Fraction is
   begin
      return Product (A, Make (B.Bottom, B.Top));
   end Quotient;

   function Less (A, B : Fraction) return Boolean is
   begin
      return A.Top * B.Bottom < B.Top * A.Bottom;
   end Less;

   procedure Show (A : Fraction) is
   begin
      Put (Integer'Image (A.Top));
      if A.Bottom /= 1 then
         Put (" /" & Positive'Image (A.Bottom));
      end if;
      New_Line;
   end Show;
end Fractions;
