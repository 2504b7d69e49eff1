package Goods is
   type Item is (Bolt, Nut, Washer, Spring, Gear);
   type Amount is range 0 .. 10_000;
   type Line is record
      What  : Item;
      Count : Amount;
      Price : Amount;
   end record;
   type Order is array (1 .. 3) of Line;
   type Answer is (Delivered, Too_Few, Empty_Order);
end Goods;
