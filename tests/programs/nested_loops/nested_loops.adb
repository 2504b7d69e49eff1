with Ada.Text_IO; use Ada.Text_IO;
procedure Nested_Loops is
   Found : Natural := 0;
   Total : Integer := 0;
begin
   Sides : for A in 1 .. 30 loop
      for B in A .. 30 loop
         for C in B .. 40 loop
            if A * A + B * B = C * C then
               Put_Line (Integer'Image (A) & Integer'Image (B) & Integer'Image (C));
               Found := Found + 1;
               exit Sides when Found = 6;
            end if;
            exit when C * C > A * A + B * B;
         end loop;
      end loop;
   end loop Sides;

   Countdown :
   loop
      Total := Total + Found;
      Found := Found - 1;
      while Found > 3 loop
         Found := Found - 1;
         if Found = 3 then
            exit Countdown;
         end if;
      end loop;
   end loop Countdown;
   Put_Line (Integer'Image (Total) & Integer'Image (Found));

   Outer : declare
      Sum : Integer := 5;
   begin
      for Total in reverse 1 .. 3 loop
         Put (Integer'Image (Total) & Integer'Image (Sum));
         Sum := Sum + Total;
      end loop;
      New_Line;
      Total := Sum;
   end Outer;
   Put_Line (Integer'Image (Total));

   for I in 1 .. 3 loop
      declare
         Square : constant Integer := I * I;
         Row    : Integer := 0;
      begin
         while Row < Square loop
            Row := Row + 1;
            Put ("*");
         end loop;
         Put_Line (Integer'Image (Square));
      end;
   end loop;
end Nested_Loops;
