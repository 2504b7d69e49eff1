with Ada.Text_IO;
with Failing;
procedure Failing_Task is
begin
   Ada.Text_IO.Put_Line ("main");
end Failing_Task;
