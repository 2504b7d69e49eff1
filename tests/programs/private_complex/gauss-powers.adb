package body Gauss.Powers is
   function Power (N : Number; Times : Natural) return Number is
      R : Number := (1, 0);
   begin
      for I in 1 .. Times loop
         R := Product (R, N);
      end loop;
      return R;
   end Power;

   function Norm (N : Number) return Natural is
      Sum : Natural := 0;
   begin
      for I in N'Range loop
         Sum := Sum + N (I) ** 2;
      end loop;
      return Sum;
   end Norm;
end Gauss.Powers;
