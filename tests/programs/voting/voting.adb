with Ada.Text_IO;
with Ballots.Counting; use Ballots, Ballots.Counting;
procedure Voting is
   procedure Cast_Many (R : Ranking; Times : Positive) is
   begin
      for I in 1 .. Times loop
         Cast (R);
      end loop;
   end Cast_Many;
begin
   Cast_Many (Ranking'(Alba, Chandra, Doro, Boris), 5);
   Cast_Many (Ranking'(Boris, Chandra, Alba, Doro), 4);
   Cast_Many (Ranking'(Chandra, Boris, Doro, Alba), 2);
   Cast (Ranking'(Doro, Chandra, Boris, Alba));
   Ada.Text_IO.Put_Line ("plurality: " & Candidate'Image (Plurality));
   for C in Candidate loop
      Ada.Text_IO.Put_Line (Candidate'Image (C) & Natural'Image (Points (C)));
   end loop;
   Instant_Runoff;
end Voting;
