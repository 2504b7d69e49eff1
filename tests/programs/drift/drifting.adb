with Ada.Text_IO;
with Ada.Real_Time; use Ada.Real_Time;
package body Drifting is
   protected body Counts is
      procedure Add (To_Exact : Boolean) is
      begin
         if To_Exact then
            A := A + 1;
         else
            B := B + 1;
         end if;
      end Add;

      function Exact return Natural is
      begin
         return A;
      end Exact;

      function Late return Natural is
      begin
         return B;
      end Late;
   end Counts;

   task body Exact is
      Next : Time := Start + Milliseconds (100);
   begin
      for I in 1 .. 10 loop
         delay until Next;
         Counts.Add (True);
         Next := Next + Milliseconds (20);
      end loop;
   end Exact;

   --  The same period, and 10 more of work each time.
   task body Late is
      Next : Time := Start + Milliseconds (105);
   begin
      for I in 1 .. 10 loop
         delay until Next;
         Counts.Add (False);
         delay until Next + Milliseconds (10);
         Next := Next + Milliseconds (30);
      end loop;
   end Late;

   task body Judge is
      Next : Time := Start + Milliseconds (152);
   begin
      for I in 1 .. 4 loop
         delay until Next;
         Ada.Text_IO.Put_Line ("exact" & Integer'Image (Counts.Exact) & ", late" & Integer'Image (Counts.Late));
         Next := Next + Milliseconds (60);
      end loop;
   end Judge;
end Drifting;
