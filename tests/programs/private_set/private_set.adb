with Ada.Text_IO; use Ada.Text_IO;
with Sets; use Sets;

procedure Private_Set is
   Primes, Odds, Both : Set := Empty;

   procedure Show (S : Set) is
   begin
      for M in Member loop
         if Has (S, M) then
            Put (Integer'Image (M));
         end if;
      end loop;
      Put_Line (" :" & Integer'Image (Size (S)));
   end Show;

   function Is_Prime (N : Member) return Boolean is
   begin
      if N < 2 then
         return False;
      end if;
      for D in 2 .. N - 1 loop
         if N mod D = 0 then
            return False;
         end if;
      end loop;
      return True;
   end Is_Prime;
begin
   for M in Member loop
      if Is_Prime (M) then
         Add (Primes, M);
      end if;
      if M mod 2 = 1 then
         Add (Odds, M);
      end if;
   end loop;
   Show (Primes);
   Both := Common (Primes, Odds);
   Show (Both);
   Show (Union (Primes, Odds));
   if Is_Subset (Both, Primes) and not Is_Subset (Primes, Odds) then
      Put_Line ("2 is even");
   end if;
   Remove (Primes, 2);
   if Primes = Both then
      Put_Line ("the others are odd");
   end if;
   if Common (Primes, Sets.Empty) = Empty and Primes /= Empty then
      Put_Line ("nothing is in the empty set");
   end if;
end Private_Set;
