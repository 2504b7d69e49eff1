package Executive is
   type Frame is range 0 .. 3;
   procedure Read_Sensor (Cycle : Integer);
   procedure Control (Cycle : Integer);
   procedure Show (Cycle : Integer);

   --  Frames of 20 milliseconds: the sensor in each, control in every second, the display in one of four.
   task Cycles with Priority => 16;
end Executive;
