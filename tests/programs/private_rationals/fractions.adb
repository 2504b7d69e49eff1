with Ada.Text_IO; use Ada.Text_IO;

package body Fractions is
   function Divisor (A, B : Natural) return Natural is
   begin
      if B = 0 then
         return A;
      end if;
      return Divisor (B, A mod B);
   end Divisor;

   function Make (Over, Under : Integer) return Fraction is
      D : Natural := Divisor (abs Over, abs Under);
      R : Fraction := (Over / D, abs Under / D);
   begin
      if Under < 0 then
         R.Over := -R.Over;
      end if;
      return R;
   end Make;

   function Sum (A, B : Fraction) return Fraction is
   begin
      return Make (A.Over * B.Under + B.Over * A.Under, A.Under * B.Under);
   end Sum;

   function Product (A, B : Fraction) return Fraction is
   begin
      return Make (A.Over * B.Over, A.Under * B.Under);
   end Product;

   function Inverse (A : Fraction) return Fraction is
   begin
      return Make (A.Under, A.Over);
   end Inverse;

   function Is_Less (A, B : Fraction) return Boolean is
   begin
      return A.Over * B.Under < B.Over * A.Under;
   end Is_Less;

   procedure Show (A : Fraction) is
   begin
      Put (Integer'Image (A.Over) & " /" & Integer'Image (A.Under));
   end Show;
end Fractions;
