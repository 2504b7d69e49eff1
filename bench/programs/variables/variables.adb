with Ada.Text_IO;
with Counts;
procedure Variables is
begin
   while Counts.Turn < 300_000 loop
      Counts.Sum := (Counts.Sum + Counts.Turn) mod 997;
      Counts.Turn := Counts.Turn + 1;
   end loop;
   Ada.Text_IO.Put_Line (Integer'Image (Counts.Sum));
end Variables;
