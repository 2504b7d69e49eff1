with Ada.Text_IO;
with Ada.Real_Time; use Ada.Real_Time;
package body Dog is
   protected body Calm is
      procedure Kick is
      begin
         Is_Kicked := True;
      end Kick;

      procedure Look (Was_Kicked : out Boolean) is
      begin
         Was_Kicked := Is_Kicked;
         Is_Kicked := False;
      end Look;
   end Calm;

   --  It works regularly, hangs for a while, and comes back.
   task body Worker is
      Next : Time := Start + Milliseconds (60);
   begin
      for Round in 1 .. 8 loop
         delay until Next;
         Calm.Kick;
         Next := Next + Milliseconds (20);
         if Round = 4 then
            Next := Next + Milliseconds (60);
         end if;
      end loop;
   end Worker;

   task body Watch is
      Next   : Time := Start + Milliseconds (70);
      Kicked : Boolean;
   begin
      for Round in 1 .. 12 loop
         delay until Next;
         Calm.Look (Kicked);
         if Kicked then
            Ada.Text_IO.Put_Line (Integer'Image (Round) & " all is well");
         else
            Ada.Text_IO.Put_Line (Integer'Image (Round) & " bark");
         end if;
         Next := Next + Milliseconds (20);
      end loop;
   end Watch;
end Dog;
