with Ada.Text_IO; use Ada.Text_IO;
procedure Fibonacci is
   type Counter is range 0 .. 1_000_000_000_000;
   Calls : Natural := 0;

   function Slow (N : Natural) return Natural is
   begin
      Calls := Calls + 1;
      if N < 2 then
         return N;
      end if;
      return Slow (N - 1) + Slow (N - 2);
   end Slow;

   function Fast (N : Natural) return Counter is
      Before : Counter := 0;
      Now    : Counter := 1;
      Next   : Counter;
   begin
      if N = 0 then
         return 0;
      end if;
      for I in 2 .. N loop
         Next := Before + Now;
         Before := Now;
         Now := Next;
      end loop;
      return Now;
   end Fast;

   type Memory is array (0 .. 50) of Counter;
   Known : Memory := (others => 0);

   function Kept (N : Natural) return Counter is
   begin
      if N < 2 then
         return Counter (N);
      end if;
      if Known (N) = 0 then
         Known (N) := Kept (N - 1) + Kept (N - 2);
      end if;
      return Known (N);
   end Kept;

begin
   for I in 0 .. 15 loop
      Put (Natural'Image (Slow (I)));
   end loop;
   New_Line;
   Put_Line ("calls" & Natural'Image (Calls));
   Put_Line ("fast (50)" & Counter'Image (Fast (50)));
   Put_Line ("kept (50)" & Counter'Image (Kept (50)));
   Put_Line (Boolean'Image (Fast (30) = Counter (Slow (20)) * 123));
   for I in 0 .. 50 loop
      if Fast (I) /= Kept (I) then
         Put_Line ("they differ at" & Integer'Image (I));
      end if;
   end loop;
end Fibonacci;
