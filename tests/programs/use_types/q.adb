package body Q is
   function F (X : D) return Integer is
   begin
      return D'Pos (X) * 10;
   end F;
   function F (X : Integer) return D is
   begin
      return D'Val (X mod 3);
   end F;
end Q;
