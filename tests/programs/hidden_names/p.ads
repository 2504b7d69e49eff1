package P is
   X : Integer := 1;
   function F (A : Integer) return Integer;
   type E is (L, N);
end P;
