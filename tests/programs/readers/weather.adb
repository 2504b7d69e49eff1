with Ada.Text_IO;
with Ada.Real_Time; use Ada.Real_Time;
package body Weather is
   protected body Current is
      procedure Write (New_Report : Report) is
      begin
         Last := New_Report;
      end Write;

      function Read return Report is
      begin
         return Last;
      end Read;
   end Current;

   procedure Show (Column : Natural; R : Report) is
   begin
      for I in 1 .. Column loop
         Ada.Text_IO.Put ("        ");
      end loop;
      Ada.Text_IO.Put_Line ("day" & Natural'Image (R.Day) & ":" & Integer'Image (R.Degrees));
   end Show;

   task body Writer is
      Next : Time := Start + Milliseconds (60);
      R    : Report;
   begin
      R.Degrees := 12;
      for Day in 1 .. 6 loop
         delay until Next;
         R.Day := Day;
         R.Degrees := R.Degrees + Day mod 3 * 4 - 3;
         Current.Write (R);
         Next := Next + Milliseconds (20);
      end loop;
   end Writer;

   task body First_Reader is
      Next : Time := Start + Milliseconds (50);
      R    : Report;
   begin
      for I in 1 .. 4 loop
         delay until Next;
         R := Current.Read;
         Show (0, R);
         Next := Next + Milliseconds (40);
      end loop;
   end First_Reader;

   task body Second_Reader is
      Next : Time := Start + Milliseconds (75);
      R    : Report;
   begin
      for I in 1 .. 5 loop
         delay until Next;
         R := Current.Read;
         Show (2, R);
         Next := Next + Milliseconds (20);
      end loop;
   end Second_Reader;
end Weather;
