with Ada.Real_Time;
package Periods is
   Start : Ada.Real_Time.Time := Ada.Real_Time.Clock;
   task Fast with Priority => 12;
   task Middle with Priority => 11;
   task Slow with Priority => 10;
end Periods;
