with Ada.Text_IO;
with Tables;
procedure Hash_Table is
   use type Tables.State;
   How   : Tables.State;
   Value : Integer;

   procedure Tell (K : Tables.Key) is
   begin
      Tables.Get (K, Value, How);
      Ada.Text_IO.Put_Line (Tables.Key'Image (K) & " " & Tables.State'Image (How) & Integer'Image (Value));
   end Tell;
begin
   for I in 1 .. 12 loop
      Tables.Put (I * 111, I, How);
      if How = Tables.Full then
         Ada.Text_IO.Put_Line ("full at" & Integer'Image (I));
      end if;
   end loop;
   Tell (333);
   Tell (334);
   Tables.Put (333, 3_000, How);
   Tell (333);
   Tables.Remove (555, How);
   Tell (555);
   Tables.Put (1332, 12, How);
   Tell (1332);
   Ada.Text_IO.Put_Line ("used" & Natural'Image (Tables.Used) & ", probes" & Natural'Image (Tables.Probes));
end Hash_Table;
