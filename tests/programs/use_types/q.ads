package Q is
   type D is (Blue, Red, Yellow);
   type T is (One, Two);
   function F (X : D) return Integer;
   function F (X : Integer) return D;
end Q;
