package Weights is
   type Weight is range -100 .. 100;
   type Flag is (Off, On);
   One : constant Weight := 1;
   Two : constant Weight := 2;
   function Heavy return Weight;
end Weights;
