package Units is
   type Metres is range -1_000_000 .. 1_000_000;
   type Seconds is range 0 .. 86_400;
   type Speed is range -100_000 .. 100_000;
   type Gear is (Neutral, First, Second, Third);
   function Speed_Of (M : Metres; S : Seconds) return Speed;
   function Way (V : Speed; S : Seconds) return Metres;
end Units;
