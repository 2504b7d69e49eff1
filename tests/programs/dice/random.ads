package Random is
   type Seed_Value is range 0 .. 65_520;
   procedure Reset (Seed : Seed_Value);
   function Next (Limit : Positive) return Positive;
end Random;
