with Ada.Text_IO;
procedure Sieve is
   type Marks is array (2 .. 4_000) of Boolean;
   Sound    : Marks;
   Multiple : Integer;
   Count    : Natural := 0;
begin
   for Round in 1 .. 20 loop
      for I in Marks'Range loop
         Sound (I) := True;
      end loop;
      Count := 0;
      for I in Marks'Range loop
         if Sound (I) then
            Count := Count + 1;
            Multiple := I + I;
            while Multiple <= 4_000 loop
               Sound (Multiple) := False;
               Multiple := Multiple + I;
            end loop;
         end if;
      end loop;
   end loop;
   Ada.Text_IO.Put_Line (Natural'Image (Count));
end Sieve;
