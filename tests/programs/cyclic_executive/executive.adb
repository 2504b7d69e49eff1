with Ada.Text_IO;
with Ada.Real_Time; use Ada.Real_Time;
package body Executive is
   Value  : Integer := 0;
   Output : Integer := 0;

   procedure Read_Sensor (Cycle : Integer) is
   begin
      Value := (Value * 7 + Cycle) mod 101;
   end Read_Sensor;

   procedure Control (Cycle : Integer) is
   begin
      if Value > 50 then
         Output := Output - 1;
      else
         Output := Output + 1;
      end if;
   end Control;

   procedure Show (Cycle : Integer) is
   begin
      Ada.Text_IO.Put_Line ("cycle" & Integer'Image (Cycle) & ": value" & Integer'Image (Value) & ", output" & Integer'Image (Output));
   end Show;

   task body Cycles is
      Next  : Time := Clock;
      Part  : Frame := 0;
      Cycle : Integer := 1;
   begin
      while Cycle <= 6 loop
         Next := Next + Milliseconds (20);
         delay until Next;
         Read_Sensor (Cycle);
         case Part is
            when 0 | 2 =>
               Control (Cycle);
            when 1 =>
               null;
            when 3 =>
               Show (Cycle);
               Cycle := Cycle + 1;
         end case;
         if Part = Frame'Last then
            Part := 0;
         else
            Part := Part + 1;
         end if;
      end loop;
   end Cycles;
end Executive;
