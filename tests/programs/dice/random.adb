package body Random is
   Seed : Seed_Value := 1;

   procedure Reset (Seed : Seed_Value) is
   begin
      Random.Seed := Seed;
   end Reset;

   function Next (Limit : Positive) return Positive is
   begin
      Seed := Seed_Value ((Integer (Seed) * 17364 + 1) mod 65_521);
      return Integer (Seed / 7) mod Limit + 1;
   end Next;
end Random;
