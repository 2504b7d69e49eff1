with Ada.Text_IO;
with Ada.Real_Time; use Ada.Real_Time;
package body Events is
   Start : Time := Clock;

   protected body Log is
      procedure Add (Of_Kind : Kind; Value : Integer) is
         E : Event;
      begin
         E.Number := Number;
         E.Of_Kind := Of_Kind;
         E.Value := Value;
         Number := Number + 1;
         if Used = Size then
            First := (First + 1) mod Size;
            Used := Used - 1;
            Gone := Gone + 1;
         end if;
         Kept ((First + Used) mod Size) := E;
         Used := Used + 1;
      end Add;

      procedure Take (E : out Event; Is_There : out Boolean) is
      begin
         Is_There := Used > 0;
         if Used > 0 then
            E := Kept (First);
            First := (First + 1) mod Size;
            Used := Used - 1;
         end if;
      end Take;

      function Lost return Natural is
      begin
         return Gone;
      end Lost;
   end Log;

   task body Sensor is
      Next  : Time := Start + Milliseconds (50);
      Value : Integer := 3;
   begin
      Log.Add (Started, 1);
      for I in 1 .. 10 loop
         delay until Next;
         Value := (Value * 5 + 1) mod 17;
         Log.Add (Measured, Value);
         Next := Next + Milliseconds (20);
      end loop;
      Log.Add (Stopped, 1);
   end Sensor;

   task body Guard is
      Next : Time := Start + Milliseconds (105);
   begin
      for I in 1 .. 3 loop
         delay until Next;
         Log.Add (Alarm, -I);
         Next := Next + Milliseconds (40);
      end loop;
   end Guard;

   task body Printer is
      Next     : Time := Start + Milliseconds (155);
      E        : Event;
      Is_There : Boolean;
   begin
      for I in 1 .. 2 loop
         delay until Next;
         loop
            Log.Take (E, Is_There);
            exit when not Is_There;
            Ada.Text_IO.Put_Line (Natural'Image (E.Number) & " " & Kind'Image (E.Of_Kind) & Integer'Image (E.Value));
         end loop;
         Ada.Text_IO.Put_Line ("lost" & Natural'Image (Log.Lost));
         Next := Next + Milliseconds (120);
      end loop;
   end Printer;
end Events;
