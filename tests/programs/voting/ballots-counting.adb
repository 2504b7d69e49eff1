with Ada.Text_IO; use Ada.Text_IO;
package body Ballots.Counting is
   type Tally is array (Candidate) of Natural;
   type Field is array (Candidate) of Boolean;

   procedure Count_First (Standing : Field; T : out Tally) is
      R : Ranking;
   begin
      T := (others => 0);
      for B in 1 .. Cast_Count loop
         R := Ballot (B);
         for P in R'Range loop
            if Standing (R (P)) then
               T (R (P)) := T (R (P)) + 1;
               exit;
            end if;
         end loop;
      end loop;
   end Count_First;

   function Plurality return Candidate is
      T    : Tally;
      Best : Candidate := Candidate'First;
   begin
      Count_First (Field'(others => True), T);
      for C in Candidate loop
         if T (C) > T (Best) then
            Best := C;
         end if;
      end loop;
      return Best;
   end Plurality;

   function Points (C : Candidate) return Natural is
      Sum : Natural := 0;
      R   : Ranking;
   begin
      for B in 1 .. Cast_Count loop
         R := Ballot (B);
         for P in R'Range loop
            if R (P) = C then
               Sum := Sum + Rank_Count - P;
            end if;
         end loop;
      end loop;
      return Sum;
   end Points;

   procedure Instant_Runoff is
      Standing : Field := (others => True);
      T        : Tally;
      Least    : Candidate;
      Any      : Boolean;
   begin
      for Round in 1 .. Rank_Count - 1 loop
         Count_First (Standing, T);
         Any := False;
         for C in Candidate loop
            if Standing (C) then
               Put (" " & Candidate'Image (C) & Natural'Image (T (C)));
               if not Any or else T (C) < T (Least) then
                  Least := C;
                  Any := True;
               end if;
            end if;
         end loop;
         New_Line;
         Standing (Least) := False;
      end loop;
      for C in Candidate loop
         if Standing (C) then
            Put_Line ("elected: " & Candidate'Image (C));
         end if;
      end loop;
   end Instant_Runoff;
end Ballots.Counting;
