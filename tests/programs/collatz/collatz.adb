with Ada.Text_IO;
procedure Collatz is
   Last_Start : constant := 300;

   function Steps (Start : Positive) return Natural is
      N     : Positive := Start;
      Count : Natural := 0;
   begin
      while N /= 1 loop
         if N mod 2 = 0 then
            N := N / 2;
         else
            N := 3 * N + 1;
         end if;
         Count := Count + 1;
      end loop;
      return Count;
   end Steps;

   function Peak (Start : Positive) return Positive is
      N    : Positive := Start;
      Most : Positive := Start;
   begin
      loop
         exit when N = 1;
         case N mod 2 is
            when 0 =>
               N := N / 2;
            when others =>
               N := 3 * N + 1;
         end case;
         if N > Most then
            Most := N;
         end if;
      end loop;
      return Most;
   end Peak;

   Longest : Positive := 1;
   Most    : Natural := 0;
begin
   for Start in 1 .. Last_Start loop
      if Steps (Start) > Most then
         Longest := Start;
         Most := Steps (Start);
         Ada.Text_IO.Put_Line (Positive'Image (Start) & " takes" & Natural'Image (Most) & " steps, to" & Positive'Image (Peak (Start)));
      end if;
   end loop;
   Ada.Text_IO.Put_Line ("longest:" & Positive'Image (Longest));
end Collatz;
