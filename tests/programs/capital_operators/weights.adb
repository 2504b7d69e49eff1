package body Weights is
   function Heavy return Weight is
   begin
      return 50;
   end Heavy;
end Weights;
