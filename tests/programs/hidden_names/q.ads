package Q is
   X : Integer := 2;
   function F (A : Boolean) return Integer;
   Z : Integer := 3;
end Q;
