with Ada.Text_IO;
procedure Collatz is
   Longest : Natural := 0;
   Start   : Positive := 1;
   N       : Positive;
   Steps   : Natural;
begin
   for First in 1 .. 3_000 loop
      N := First;
      Steps := 0;
      while N /= 1 loop
         if N mod 2 = 0 then
            N := N / 2;
         else
            N := 3 * N + 1;
         end if;
         Steps := Steps + 1;
      end loop;
      if Steps > Longest then
         Longest := Steps;
         Start := First;
      end if;
   end loop;
   Ada.Text_IO.Put_Line (Positive'Image (Start) & Natural'Image (Longest));
end Collatz;
