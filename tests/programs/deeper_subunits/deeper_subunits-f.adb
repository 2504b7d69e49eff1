separate (Deeper_Subunits)
function F (N : Integer) return Integer is
   procedure Deep (K : Integer; R : out Integer) is separate;
   R : Integer;
begin
   if N = 0 then
      return X;
   end if;
   Deep (N, R);
   return R + F (N - 1);
end F;
