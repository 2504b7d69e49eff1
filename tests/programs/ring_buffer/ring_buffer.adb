with Ada.Text_IO;
with Ring; use type Ring.Reading;
procedure Ring_Buffer is
   R : Ring.Reading := 14;
begin
   for I in 1 .. 7 loop
      Ring.Put (R);
      R := R * 2 - 13;
      Ada.Text_IO.Put_Line (Integer'Image (I) & ":" & Natural'Image (Ring.Count) & " held, mean" & Ring.Reading'Image (Ring.Average));
      exit when R > 50;
   end loop;
   Ada.Text_IO.Put_Line ("lost" & Natural'Image (Ring.Lost));
   while Ring.Count > 0 loop
      Ring.Take (R);
      Ada.Text_IO.Put (Ring.Reading'Image (R));
   end loop;
   Ada.Text_IO.New_Line;
   Ada.Text_IO.Put_Line (Ring.Reading'Image (Ring.Average));
end Ring_Buffer;
