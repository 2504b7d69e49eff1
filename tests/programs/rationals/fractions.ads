package Fractions is
   type Fraction is record
      Top    : Integer;
      Bottom : Positive;
   end record;

   function Make (Top, Bottom : Integer) return Fraction;
   function Sum (A, B : Fraction) return Fraction;
   function Difference (A, B : Fraction) return Fraction;
   function Product (A, B : Fraction) return Fraction;
   function Quotient (A, B : Fraction) return Fraction;
   function Less (A, B : Fraction) return Boolean;
   procedure Show (A : Fraction);
end Fractions;
