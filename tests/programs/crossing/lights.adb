with Ada.Text_IO;
with Ada.Real_Time; use Ada.Real_Time;
package body Lights is
   protected body Crossing is
      procedure Change is
         Before : Light := Main;
      begin
         Main := Side;
         Side := Before;
      end Change;

      function Main_Road return Light is
      begin
         return Main;
      end Main_Road;

      function Side_Road return Light is
      begin
         return Side;
      end Side_Road;
   end Crossing;

   task body Timer is
      Next : Time := Start + Milliseconds (100);
   begin
      for I in 1 .. 6 loop
         delay until Next;
         Crossing.Change;
         Ada.Text_IO.Put_Line ("main " & Light'Image (Crossing.Main_Road) & ", side " & Light'Image (Crossing.Side_Road));
         Next := Next + Milliseconds (50);
      end loop;
   end Timer;

   task body Main_Cars is
      Next    : Time := Start + Milliseconds (60);
      Waiting : Natural := 0;
   begin
      for I in 1 .. 8 loop
         delay until Next;
         if Crossing.Main_Road = Green then
            Ada.Text_IO.Put_Line ("main road: car" & Integer'Image (I) & " and" & Natural'Image (Waiting) & " that waited");
            Waiting := 0;
         else
            Waiting := Waiting + 1;
         end if;
         Next := Next + Milliseconds (30);
      end loop;
   end Main_Cars;

   task body Side_Cars is
      Next    : Time := Start + Milliseconds (75);
      Waiting : Natural := 0;
   begin
      for I in 1 .. 5 loop
         delay until Next;
         if Crossing.Side_Road = Green then
            Ada.Text_IO.Put_Line ("side road: car" & Integer'Image (I) & " and" & Natural'Image (Waiting) & " that waited");
            Waiting := 0;
         else
            Waiting := Waiting + 1;
         end if;
         Next := Next + Milliseconds (60);
      end loop;
   end Side_Cars;
end Lights;
