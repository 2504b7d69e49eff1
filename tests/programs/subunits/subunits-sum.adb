separate (Subunits)
function Sum return Integer is
   Total : Integer := 0;
   procedure Add (Item : Integer) is separate;
begin
   Calls := Calls + 1;
   for I in Data'Range loop
      Add (Data (I));
   end loop;
   return Total;
end Sum;
