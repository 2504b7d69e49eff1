with Ada.Text_IO; use Ada.Text_IO;
with Random;
procedure Dice is
   subtype Face is Integer range 1 .. 6;
   subtype Sum is Integer range 2 .. 12;
   type Faces is array (Face) of Natural;
   type Sums is array (Sum) of Natural;

   procedure Bar (Length : Natural) is
   begin
      for I in 1 .. Length loop
         Put ("#");
      end loop;
      New_Line;
   end Bar;

   One         : Faces := (others => 0);
   Two         : Sums := (others => 0);
   First, Both : Integer;
   Doubles     : Natural := 0;
begin
   Random.Reset (2026);
   for Throw in 1 .. 300 loop
      First := Random.Next (6);
      Both := First + Random.Next (6);
      One (First) := One (First) + 1;
      Two (Both) := Two (Both) + 1;
      if Both = 2 * First then
         Doubles := Doubles + 1;
      end if;
   end loop;
   for F in Face loop
      Put_Line (Face'Image (F) & ":" & Natural'Image (One (F)));
   end loop;
   for S in Sum loop
      Put (Sum'Image (S) & " ");
      if S < 10 then
         Put (" ");
      end if;
      Bar (Two (S));
   end loop;
   Put_Line ("doubles" & Natural'Image (Doubles));
end Dice;
