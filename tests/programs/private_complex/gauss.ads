package Gauss is
   type Number is private;

   function Of_Parts (Re, Im : Integer) return Number;
   function Re (N : Number) return Integer;
   function Im (N : Number) return Integer;
   function Sum (A, B : Number) return Number;
   function Product (A, B : Number) return Number;
private
   type Number is array (Boolean) of Integer;
end Gauss;
