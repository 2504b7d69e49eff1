package body Number_Kinds is
   function Sum_Of_Divisors (N : Positive) return Natural is
      Sum : Natural := 0;
      D   : Positive := 1;
   begin
      while D * D <= N loop
         if N rem D = 0 then
            Sum := Sum + D;
            if D /= 1 and D * D /= N then
               Sum := Sum + N / D;
            end if;
         end if;
         D := D + 1;
      end loop;
      if N = 1 then
         return 0;
      end if;
      return Sum;
   end Sum_Of_Divisors;

   function Kind_Of (N : Positive) return Kind is
      Sum : constant Natural := Sum_Of_Divisors (N);
   begin
      if Sum < N then
         return Deficient;
      elsif Sum = N then
         return Perfect;
      end if;
      return Abundant;
   end Kind_Of;
end Number_Kinds;
