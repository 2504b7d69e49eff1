package body Stacks.Sums is
   function Total (S : Stack) return Integer is
      Sum : Integer := 0;
   begin
      for I in 1 .. S.Top loop
         Sum := Sum + S.Items (I);
      end loop;
      return Sum;
   end Total;

   procedure Double (S : in out Stack) is
   begin
      for I in 1 .. S.Top loop
         S.Items (I) := 2 * S.Items (I);
      end loop;
   end Double;
end Stacks.Sums;
