with Ada.Text_IO; use Ada.Text_IO;
procedure Ranges is
   type Level is range -5 .. 5;
   subtype High is Level range 1 .. 5;
   subtype None is Level range 1 .. 0;
   type Colour is (Red, Orange, Yellow, Green, Blue, Violet);
   subtype Warm is Colour range Red .. Yellow;
   type Counts is array (Warm) of Natural;
   type Nothing is array (None) of Integer;

   Count    : Counts := (1, 2, 3);
   Empty    : Nothing;
   Sum      : Integer := 0;
   Rounds   : Natural := 0;
   L        : Level := High'First;
   Mixture  : Colour := Warm'Last;
begin
   Put_Line (Level'Image (Level'First) & Level'Image (Level'Last) & Level'Image (High'First));
   Put_Line (Integer'Image (Count'Length) & Integer'Image (Empty'Length) & " " & Warm'Image (Count'First));
   for C in Count'Range loop
      Sum := Sum + Count (C) * Colour'Pos (C);
   end loop;
   Put_Line ("sum" & Integer'Image (Sum));
   for I in Empty'Range loop
      Rounds := Rounds + 1;
   end loop;
   for I in Level range 3 .. 2 loop
      Rounds := Rounds + 1;
   end loop;
   for I in reverse High loop
      Rounds := Rounds + 1;
      Put (Level'Image (I));
   end loop;
   Put_Line (", rounds" & Natural'Image (Rounds));
   Put_Line (Boolean'Image (L in High) & " " & Boolean'Image (L - 1 in High) & " " & Boolean'Image (L not in None));
   Put_Line (Boolean'Image (Mixture in Warm) & " " & Boolean'Image (Colour'Succ (Mixture) in Warm));
   Mixture := Colour'Val (Colour'Pos (Mixture) + 2);
   Put_Line (Colour'Image (Mixture) & " after " & Colour'Image (Colour'Pred (Mixture)));
   Put_Line (Boolean'Image (Mixture > Warm'Last));
end Ranges;
