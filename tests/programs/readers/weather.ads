with Ada.Real_Time;
package Weather is
   Start : Ada.Real_Time.Time := Ada.Real_Time.Clock;
   type Report is record
      Day     : Natural;
      Degrees : Integer;
   end record;

   --  A report is read whole, as it was written.
   protected Current with Priority => 20 is
      procedure Write (New_Report : Report);
      function Read return Report;
   private
      Last : Report;
   end Current;

   task Writer with Priority => 12;
   task First_Reader with Priority => 11;
   task Second_Reader with Priority => 10;
end Weather;
