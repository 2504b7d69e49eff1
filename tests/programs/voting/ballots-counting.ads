package Ballots.Counting is
   function Plurality return Candidate;
   function Points (C : Candidate) return Natural;
   procedure Instant_Runoff;
end Ballots.Counting;
