with Ada.Text_IO; use Ada.Text_IO;
procedure Prime_Factors is
   type Big is range 0 .. 2 ** 40;

   procedure Show (Number : Big) is
      Rest     : Big := Number;
      Factor   : Big := 2;
      Exponent : Natural;
      Is_First : Boolean := True;
   begin
      Put (Big'Image (Number) & " =");
      while Factor * Factor <= Rest loop
         Exponent := 0;
         while Rest mod Factor = 0 loop
            Rest := Rest / Factor;
            Exponent := Exponent + 1;
         end loop;
         if Exponent > 0 then
            if not Is_First then
               Put (" *");
            end if;
            Is_First := False;
            Put (Big'Image (Factor));
            if Exponent > 1 then
               Put (" **" & Natural'Image (Exponent));
            end if;
         end if;
         Factor := Factor + 1;
      end loop;
      if Rest > 1 then
         if not Is_First then
            Put (" *");
         end if;
         Put (Big'Image (Rest));
      end if;
      New_Line;
   end Show;

   function Divisors (Number : Positive) return Positive is
      Count : Natural := 0;
   begin
      for D in 1 .. Number loop
         if Number mod D = 0 then
            Count := Count + 1;
         end if;
      end loop;
      return Count;
   end Divisors;

   Most : Positive := 1;
begin
   Show (360);
   Show (97);
   Show (1024);
   Show (600851475143);
   Show (2 ** 30 - 1);
   Show (999_983 * 1_009);
   for N in 1 .. 200 loop
      if Divisors (N) > Most then
         Most := Divisors (N);
         Put_Line (Integer'Image (N) & " has" & Positive'Image (Most) & " divisors");
      end if;
   end loop;
end Prime_Factors;
