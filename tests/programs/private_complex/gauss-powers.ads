package Gauss.Powers is
   function Power (N : Number; Times : Natural) return Number;
   function Norm (N : Number) return Natural;
end Gauss.Powers;
