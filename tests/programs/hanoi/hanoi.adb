with Ada.Text_IO; use Ada.Text_IO;
procedure Hanoi is
   type Peg is (Left, Middle, Right);
   type Heights is array (Peg) of Natural;

   Discs : constant Positive := 4;
   Moves : Natural := 0;
   On    : Heights := (Discs, 0, 0);

   function Other (A, B : Peg) return Peg is
   begin
      return Peg'Val (3 - Peg'Pos (A) - Peg'Pos (B));
   end Other;

   procedure Move (Count : Natural; From, To : Peg) is
   begin
      if Count = 0 then
         return;
      end if;
      Move (Count - 1, From, Other (From, To));
      Moves := Moves + 1;
      On (From) := On (From) - 1;
      On (To) := On (To) + 1;
      Put_Line ("disc" & Natural'Image (Count) & ": " & Peg'Image (From) & " to " & Peg'Image (To));
      Move (Count - 1, Other (From, To), To);
   end Move;

begin
   Move (Discs, Left, Right);
   Put_Line ("moves" & Natural'Image (Moves));
   for P in Peg loop
      Put_Line (Peg'Image (P) & " holds" & Natural'Image (On (P)));
   end loop;
   if Moves = 2 ** Discs - 1 then
      Put_Line ("as few as can be");
   end if;
end Hanoi;
