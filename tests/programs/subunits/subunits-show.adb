separate (Subunits)
procedure Show is
   use Ada.Text_IO;
begin
   Calls := Calls + 1;
   for I in Data'Range loop
      Put (Integer'Image (Data (I)));
   end loop;
   New_Line;
end Show;
