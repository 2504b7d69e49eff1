package body Q is
   function F (A : Boolean) return Integer is
   begin
      if A then
         return X;
      end if;
      return Z;
   end F;
end Q;
