with Ada.Real_Time;
package Alarms is
   Start : Ada.Real_Time.Time := Ada.Real_Time.Clock;
   Count : constant := 5;
   subtype Number is Integer range 1 .. Count;
   type Offsets is array (Number) of Natural;
   type Flags is array (Number) of Boolean;

   --  Alarms in any order; the clock rings the next one that isn't rung.
   protected Alarm with Priority => 18 is
      procedure Set (I : Number; After : Natural);
      procedure Next_One (I : out Natural; After : out Natural);
   private
      Times  : Offsets := (others => 0);
      Is_Set : Flags := (others => False);
   end Alarm;

   task Ringer with Priority => 18;
end Alarms;
