package body Scales is
   function Twice (D : Distance) return Distance is
   begin
      return D + D;
   end Twice;
end Scales;
