package Aa is
   type T is range 0 .. 100;
   V : T := 5;
   function Get return T;
private
   Hidden : T := 7;
   procedure Bump;
end Aa;
