package body P is
   function F (A : Integer) return Integer is
   begin
      return A + X;
   end F;
end P;
