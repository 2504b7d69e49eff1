package body P is
   function Mk (A, B : T) return R is
      Z : R;
   begin
      Z.X := A;
      Z.Y := B;
      return Z;
   end Mk;
end P;
