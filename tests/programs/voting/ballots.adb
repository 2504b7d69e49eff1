package body Ballots is
   type Box is array (1 .. Most) of Ranking;
   Votes : Box;
   Count : Natural := 0;

   procedure Cast (R : Ranking) is
   begin
      Count := Count + 1;
      Votes (Count) := R;
   end Cast;

   function Cast_Count return Natural is
   begin
      return Count;
   end Cast_Count;

   function Ballot (Number : Positive) return Ranking is
   begin
      return Votes (Number);
   end Ballot;
end Ballots;
