with Ada.Text_IO;
with Alarms;
procedure Alarm_Clock is
begin
   Alarms.Alarm.Set (1, 180);
   Alarms.Alarm.Set (2, 90);
   Alarms.Alarm.Set (3, 260);
   Alarms.Alarm.Set (4, 120);
   Alarms.Alarm.Set (5, 100);
   Ada.Text_IO.Put_Line ("five alarms");
end Alarm_Clock;
