with Ada.Real_Time;
package Drifting is
   Start : Ada.Real_Time.Time := Ada.Real_Time.Clock;

   --  One waits so long from the moment that it wakes at, the other from its last one: after some work the first is late.
   protected Counts is
      procedure Add (To_Exact : Boolean);
      function Exact return Natural;
      function Late return Natural;
   private
      A, B : Natural := 0;
   end Counts;

   task Exact with Priority => 10;
   task Late with Priority => 9;
   task Judge with Priority => 12;
end Drifting;
