with Ada.Real_Time;
package Dog is
   Start : Ada.Real_Time.Time := Ada.Real_Time.Clock;

   --  It barks where nobody calmed it since it looked last.
   protected Calm with Priority => 22 is
      procedure Kick;
      procedure Look (Was_Kicked : out Boolean);
   private
      Is_Kicked : Boolean := False;
   end Calm;

   task Worker with Priority => 10;
   task Watch with Priority => 22;
end Dog;
