with Ada.Text_IO;
with Units;
procedure Visible_Operators is
   use type Units.Metres, Units.Seconds;
   Way_There : constant Units.Metres := 1_500 + 2 * 250;
   Lasts     : Units.Seconds := 60 * 4;
   Fast      : Units.Speed;
   Count     : Integer := 2;
begin
   Lasts := Lasts + 10;
   Fast := Units.Speed_Of (Way_There, Lasts);
   Ada.Text_IO.Put_Line (Units.Speed'Image (Fast));
   if Way_There > 1_999 and Lasts /= 0 then
      Ada.Text_IO.Put_Line ("far");
   end if;
   declare
      use Units;
      G : Gear := Neutral;
   begin
      if Fast > 5 then
         G := Gear'Succ (G);
      end if;
      while G < Third loop
         G := Gear'Succ (G);
         Fast := Fast * 2;
         Ada.Text_IO.Put_Line (Gear'Image (G) & Speed'Image (Fast));
      end loop;
   end;
   if 2 ** Count = 4 and then Count in 1 .. 2 then
      Ada.Text_IO.Put_Line (Units.Metres'Image (Units.Way (Fast, Lasts)));
   end if;
   Count := Integer (Way_There) mod 7;
   Ada.Text_IO.Put_Line (Integer'Image (Count));
end Visible_Operators;
