with Ada.Text_IO; use Ada.Text_IO;
with Dates; use Dates;

procedure Private_Dates is
   Today : Date := On (27, Nov);
   Start : constant Date := On (1, Mar);
begin
   Show (Today);
   Show (Start);
   Put_Line ("days" & Integer'Image (Days_Between (Start, Today)));
   Advance (Today, 5);
   Show (Today);
   if Today /= On (2, Dec) then
      Put_Line ("never");
   end if;
   Today := On (31, Dec);
   Show (Today);
   Advance (Today, 1);
   Put_Line ("never");
end Private_Dates;
