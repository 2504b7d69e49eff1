with Ada.Text_IO;
with Ada.Real_Time; use Ada.Real_Time;
package body Periods is
   --  Each moment is made from the one before it and not from the clock, so that none drifts.
   task body Fast is
      Next : Time := Start + Milliseconds (60);
   begin
      for I in 1 .. 9 loop
         delay until Next;
         Ada.Text_IO.Put_Line ("fast" & Integer'Image (I));
         Next := Next + Milliseconds (20);
      end loop;
   end Fast;

   task body Middle is
      Next : Time := Start + Milliseconds (65);
   begin
      for I in 1 .. 4 loop
         delay until Next;
         Ada.Text_IO.Put_Line ("   middle" & Integer'Image (I));
         Next := Next + Milliseconds (40);
      end loop;
   end Middle;

   task body Slow is
      Next : Time := Start + Milliseconds (70);
   begin
      for I in 1 .. 3 loop
         delay until Next;
         Ada.Text_IO.Put_Line ("      slow" & Integer'Image (I));
         Next := Next + Milliseconds (60);
      end loop;
   end Slow;
end Periods;
