with Ada.Text_IO;
with Ada.Real_Time; use Ada.Real_Time;
package body Alarms is
   protected body Alarm is
      procedure Set (I : Number; After : Natural) is
      begin
         Times (I) := After;
         Is_Set (I) := True;
      end Set;

      procedure Next_One (I : out Natural; After : out Natural) is
      begin
         I := 0;
         After := 0;
         for N in Number loop
            if Is_Set (N) and then (I = 0 or else Times (N) < After) then
               I := N;
               After := Times (N);
            end if;
         end loop;
         if I > 0 then
            Is_Set (I) := False;
         end if;
      end Next_One;
   end Alarm;

   task body Ringer is
      I, After : Natural;
   begin
      delay until Start + Milliseconds (50);
      loop
         Alarm.Next_One (I, After);
         exit when I = 0;
         delay until Start + Milliseconds (After);
         Ada.Text_IO.Put_Line ("alarm" & Integer'Image (I) & " at" & Integer'Image (After));
      end loop;
      Ada.Text_IO.Put_Line ("no alarm is left");
   end Ringer;
end Alarms;
