with Ada.Real_Time;
package Limits is
   Start : Ada.Real_Time.Time := Ada.Real_Time.Clock;

   --  A bucket of tokens: each request takes one, a task adds one now and then, never above the most.
   protected Bucket with Priority => 21 is
      procedure Request (Is_Granted : out Boolean);
      procedure Add;
      function Left return Natural;
   private
      Tokens : Natural := 3;
      Most   : Natural := 3;
   end Bucket;

   task Filler with Priority => 20;
   task Client with Priority => 10;
end Limits;
