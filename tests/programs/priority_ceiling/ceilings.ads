with Ada.Real_Time;
package Ceilings is
   Start : Ada.Real_Time.Time := Ada.Real_Time.Clock;

   --  The steps of who is inside and who came meanwhile. At its ceiling nobody below 20 comes between.
   protected Steps with Priority => 20 is
      procedure Long_Work (By : Integer; Sum : out Integer);
      function Entered return Integer;
   private
      Count : Integer := 0;
   end Steps;

   task Low with Priority => 3;
   task High with Priority => 20;
end Ceilings;
