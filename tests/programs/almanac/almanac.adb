with Ada.Text_IO; use Ada.Text_IO;
with Dates; use Dates;
procedure Almanac is
   procedure Tell (D : Day; M : Month; Y : Year) is
   begin
      Put (Weekday'Image (Weekday_Of (D, M, Y)) & "," & Day'Image (D) & " " & Month'Image (M) & Year'Image (Y));
      if Weekday_Of (D, M, Y) in Weekend then
         Put (" (free)");
      end if;
      Put_Line (" day" & Positive'Image (Day_Of_Year (D, M, Y)));
   end Tell;

   procedure Page (M : Month; Y : Year) is
      Column : Natural := 0;
   begin
      Put_Line (Month'Image (M) & Year'Image (Y));
      for Blank in 1 .. Weekday'Pos (Weekday_Of (1, M, Y)) loop
         Put ("   .");
         Column := Column + 1;
      end loop;
      for D in 1 .. Days_In (M, Y) loop
         if D < 10 then
            Put (" ");
         end if;
         Put (" " & Day'Image (D));
         Column := Column + 1;
         if Column mod 7 = 0 then
            New_Line;
         end if;
      end loop;
      if Column mod 7 /= 0 then
         New_Line;
      end if;
   end Page;
begin
   Tell (24, November, 2026);
   Tell (1, January, 2000);
   Tell (29, February, 2024);
   Tell (31, December, 1999);
   Page (February, 2024);
   Put_Line (Boolean'Image (Is_Leap (1900)) & Boolean'Image (Is_Leap (2000)));
end Almanac;
