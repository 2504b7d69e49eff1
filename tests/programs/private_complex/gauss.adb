package body Gauss is
   Imaginary : constant Boolean := True;
   Plain : constant Boolean := False;

   function Of_Parts (Re, Im : Integer) return Number is
   begin
      return Number'(Re, Im);
   end Of_Parts;

   function Re (N : Number) return Integer is
   begin
      return N (Plain);
   end Re;

   function Im (N : Number) return Integer is
   begin
      return N (Imaginary);
   end Im;

   function Sum (A, B : Number) return Number is
   begin
      return Of_Parts (Re (A) + Re (B), Im (A) + Im (B));
   end Sum;

   function Product (A, B : Number) return Number is
      R : Number;
   begin
      R (Plain) := A (Plain) * B (Plain) - A (Imaginary) * B (Imaginary);
      R (Imaginary) := A (Plain) * B (Imaginary) + A (Imaginary) * B (Plain);
      return R;
   end Product;
end Gauss;
