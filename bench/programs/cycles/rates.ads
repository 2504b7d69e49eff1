with Ada.Real_Time;
package Rates is
   Start : Ada.Real_Time.Time := Ada.Real_Time.Clock;

   --  What all tasks make, and how many have ended.
   protected Total with Priority => 20 is
      procedure Add (Amount : Integer);
      procedure Finish (Is_Last : out Boolean);
      function Value return Integer;
   private
      Sum   : Integer := 0;
      Ended : Integer := 0;
   end Total;

   --  The shorter the period, the higher the priority.
   task First with Priority => 14;
   task Second with Priority => 13;
   task Third with Priority => 12;
   task Fourth with Priority => 11;
end Rates;
