package Ballots is
   type Candidate is (Alba, Boris, Chandra, Doro);
   Rank_Count : constant := 4;
   type Ranking is array (1 .. Rank_Count) of Candidate;
   Most : constant := 12;
   procedure Cast (R : Ranking);
   function Cast_Count return Natural;
   function Ballot (Number : Positive) return Ranking;
end Ballots;
