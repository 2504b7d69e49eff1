package Scales is
   type Distance is range -1000 .. 1000;
   Unit : constant Distance := 10;
   function Twice (D : Distance) return Distance;
end Scales;
