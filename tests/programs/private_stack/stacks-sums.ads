package Stacks.Sums is
   function Total (S : Stack) return Integer;
   procedure Double (S : in out Stack);
end Stacks.Sums;
