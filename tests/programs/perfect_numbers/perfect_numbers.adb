with Ada.Text_IO; use Ada.Text_IO;
with Number_Kinds; use Number_Kinds;
procedure Perfect_Numbers is
   type Counts is array (Kind) of Natural;
   Count   : Counts := (others => 0);
   Partner : Natural;
begin
   for N in 1 .. 1_000 loop
      Count (Kind_Of (N)) := Count (Kind_Of (N)) + 1;
      if Kind_Of (N) = Perfect then
         Put_Line ("perfect:" & Integer'Image (N));
      end if;
   end loop;
   for K in Kind loop
      Put_Line (Kind'Image (K) & Natural'Image (Count (K)));
   end loop;
   for N in 2 .. 1_300 loop
      Partner := Sum_Of_Divisors (N);
      if Partner > N and then Sum_Of_Divisors (Partner) = N then
         Put_Line ("amicable:" & Integer'Image (N) & Natural'Image (Partner));
      end if;
   end loop;
   for K in Kind'First .. Kind'Pred (Kind'Last) loop
      Put_Line (Kind'Image (Kind'Succ (K)) & " comes after " & Kind'Image (K));
   end loop;
end Perfect_Numbers;
