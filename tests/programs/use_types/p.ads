package P is
   type T is range 0 .. 99;
   type C is (Red, Green, Blue);
   type R is record
      X, Y : T;
   end record;
   function Mk (A, B : T) return R;
end P;
