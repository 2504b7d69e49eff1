with Ada.Real_Time;
package Lights is
   Start : Ada.Real_Time.Time := Ada.Real_Time.Clock;
   type Light is (Red, Green);

   --  Only one of the two roads is green.
   protected Crossing with Priority => 15 is
      procedure Change;
      function Main_Road return Light;
      function Side_Road return Light;
   private
      Main : Light := Green;
      Side : Light := Red;
   end Crossing;

   task Timer with Priority => 14;
   task Main_Cars with Priority => 12;
   task Side_Cars with Priority => 11;
end Lights;
