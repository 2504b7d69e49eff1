with Ada.Text_IO;
with Ada.Real_Time; use Ada.Real_Time;
package body Account is
   Held : Integer := 0;

   protected body Hold is
      entry Seize when Is_Free is
      begin
         Is_Free := False;
      end Seize;

      procedure Release is
      begin
         Is_Free := True;
      end Release;
   end Hold;

   --  It takes a while between what it reads and what it writes.
   procedure Add (Amount : Integer; Who : Integer) is
      Seen : Integer;
   begin
      Hold.Seize;
      Seen := Held;
      delay until Clock + Milliseconds (10);
      Held := Seen + Amount;
      Ada.Text_IO.Put_Line (Integer'Image (Who) & ":" & Integer'Image (Seen) & " to" & Integer'Image (Held));
      Hold.Release;
   end Add;

   function Balance return Integer is
   begin
      return Held;
   end Balance;

   task body Saver is
      Next : Time := Start + Milliseconds (60);
   begin
      for I in 1 .. 4 loop
         delay until Next;
         Add (50, 1);
         Next := Next + Milliseconds (40);
      end loop;
   end Saver;

   --  It comes while the other one is at it.
   task body Spender is
      Next : Time := Start + Milliseconds (65);
   begin
      for I in 1 .. 4 loop
         delay until Next;
         Add (-20, 2);
         Next := Next + Milliseconds (40);
      end loop;
      Ada.Text_IO.Put_Line ("balance" & Integer'Image (Balance));
   end Spender;
end Account;
