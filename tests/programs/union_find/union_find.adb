with Ada.Text_IO; use Ada.Text_IO;
with Sets; use Sets;
procedure Union_Find is
begin
   Put_Line (Integer'Image (How_Many));
   for I in 0 .. 12 loop
      Unite (I, I + 3);
   end loop;
   Put_Line (Integer'Image (How_Many));
   for I in Member loop
      Put (Member'Image (Root (I)));
   end loop;
   New_Line;
   Put_Line (Boolean'Image (Together (0, 15)) & " " & Boolean'Image (Together (1, 2)));
   Unite (1, 2);
   Unite (14, 1);
   Put_Line (Boolean'Image (Together (1, 2)) & Integer'Image (How_Many));
   Start;
   Put_Line (Integer'Image (How_Many));
end Union_Find;
