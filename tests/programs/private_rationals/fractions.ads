package Fractions is
   type Fraction is private;

   function Make (Over, Under : Integer) return Fraction;
   function Sum (A, B : Fraction) return Fraction;
   function Product (A, B : Fraction) return Fraction;
   function Inverse (A : Fraction) return Fraction;
   function Is_Less (A, B : Fraction) return Boolean;
   procedure Show (A : Fraction);
private
   type Fraction is record
      Over : Integer;
      Under : Positive;
   end record;
end Fractions;
