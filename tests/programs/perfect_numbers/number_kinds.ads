package Number_Kinds is
   type Kind is (Deficient, Perfect, Abundant);
   function Sum_Of_Divisors (N : Positive) return Natural;
   function Kind_Of (N : Positive) return Kind;
end Number_Kinds;
