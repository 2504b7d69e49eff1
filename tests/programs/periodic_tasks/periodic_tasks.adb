with Ada.Text_IO;
with Periods;
procedure Periodic_Tasks is
begin
   Ada.Text_IO.Put_Line ("three periods: 20, 40, 60");
end Periodic_Tasks;
