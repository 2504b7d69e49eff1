with Ada.Text_IO;
with Ada.Real_Time; use Ada.Real_Time;
package body Rates is
   protected body Total is
      procedure Add (Amount : Integer) is
      begin
         Sum := (Sum + Amount) mod 1_000_000;
      end Add;

      procedure Finish (Is_Last : out Boolean) is
      begin
         Ended := Ended + 1;
         Is_Last := Ended = 4;
      end Finish;

      function Value return Integer is
      begin
         return Sum;
      end Value;
   end Total;

   procedure Work (Cycle, Turns : Integer) is
      Made : Integer := 0;
   begin
      for I in 1 .. Turns loop
         Made := (Made + I * Cycle) mod 1_000;
      end loop;
      Total.Add (Made);
   end Work;

   procedure Finish is
      Is_Last : Boolean;
   begin
      Total.Finish (Is_Last);
      if Is_Last then
         Ada.Text_IO.Put_Line (Integer'Image (Total.Value));
      end if;
   end Finish;

   task body First is
      Next : Time := Start;
   begin
      for Cycle in 1 .. 4_000 loop
         Next := Next + Milliseconds (10);
         delay until Next;
         Work (Cycle, 10);
      end loop;
      Finish;
   end First;

   task body Second is
      Next : Time := Start;
   begin
      for Cycle in 1 .. 2_000 loop
         Next := Next + Milliseconds (20);
         delay until Next;
         Work (Cycle, 30);
      end loop;
      Finish;
   end Second;

   task body Third is
      Next : Time := Start;
   begin
      for Cycle in 1 .. 1_000 loop
         Next := Next + Milliseconds (40);
         delay until Next;
         Work (Cycle, 60);
      end loop;
      Finish;
   end Third;

   task body Fourth is
      Next : Time := Start;
   begin
      for Cycle in 1 .. 500 loop
         Next := Next + Milliseconds (80);
         delay until Next;
         Work (Cycle, 120);
      end loop;
      Finish;
   end Fourth;
end Rates;
