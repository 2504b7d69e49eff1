with Ada.Text_IO; use Ada.Text_IO;
procedure Pascal_Triangle is
   Rows : constant := 10;
   subtype Number is Integer range 0 .. Rows;
   type Line is array (Number) of Natural;

   Now  : Line := (others => 0);
   Next : Line;
   Sum  : Natural;

   function Binomial (N, K : Number) return Positive is
   begin
      if K = 0 or else K = N then
         return 1;
      end if;
      return Binomial (N - 1, K - 1) + Binomial (N - 1, K);
   end Binomial;

   procedure Show (Last : Number) is
   begin
      for Blank in Last .. Rows - 1 loop
         Put ("  ");
      end loop;
      for K in 0 .. Last loop
         if Now (K) < 10 then
            Put (" ");
         end if;
         Put (Natural'Image (Now (K)) & " ");
      end loop;
      New_Line;
   end Show;

begin
   Now (0) := 1;
   for N in Number loop
      Show (N);
      Sum := 0;
      for K in 0 .. N loop
         if Now (K) /= Binomial (N, K) then
            Put_Line ("wrong at" & Integer'Image (N) & Integer'Image (K));
         end if;
         Sum := Sum + Now (K);
      end loop;
      if Sum /= 2 ** N then
         Put_Line ("wrong sum" & Integer'Image (Sum));
      end if;
      Next := Now;
      for K in 1 .. Rows loop
         Next (K) := Now (K - 1) + Now (K);
      end loop;
      Now := Next;
   end loop;
end Pascal_Triangle;
