with Ada.Text_IO; use Ada.Text_IO;
procedure Sieve is
   Last : constant := 1_000;
   type Marks is array (2 .. Last) of Boolean;
   Is_Prime : Marks := (others => True);
   Multiple : Integer;
   Count    : Natural := 0;
   In_Line  : Natural := 0;
   Twins    : Natural := 0;
begin
   for I in Marks'Range loop
      exit when I * I > Last;
      if Is_Prime (I) then
         Multiple := I * I;
         while Multiple <= Last loop
            Is_Prime (Multiple) := False;
            Multiple := Multiple + I;
         end loop;
      end if;
   end loop;

   for I in Marks'Range loop
      if Is_Prime (I) then
         Count := Count + 1;
         if I < 100 then
            Put (Integer'Image (I));
            In_Line := In_Line + 1;
            if In_Line = 10 then
               New_Line;
               In_Line := 0;
            end if;
         end if;
         if I + 2 <= Last and then Is_Prime (I + 2) then
            Twins := Twins + 1;
         end if;
      end if;
   end loop;
   if In_Line > 0 then
      New_Line;
   end if;
   Put_Line ("primes" & Natural'Image (Count));
   Put_Line ("twins" & Natural'Image (Twins));
   for I in reverse Marks'Range loop
      if Is_Prime (I) then
         Put_Line ("greatest" & Integer'Image (I));
         exit;
      end if;
   end loop;
end Sieve;
