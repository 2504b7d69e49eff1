with P, Q, Ada.Text_IO;
use Q, Ada.Text_IO;
procedure Use_Types is
   use type P.T;
   use type P.R;
   A : P.T := 3;
   B : P.T := A * 2 + 1;
   E : D := Red;
   procedure Block is
      use P;
      V : C := Red;
      W : D := Red;
      Z : R := Mk (A, B);
   begin
      Put_Line (C'Image (V) & D'Image (W) & Boolean'Image (Z = Mk (3, 7)) & Boolean'Image (Blue = Green));
   end Block;
begin
   Block;
   Put_Line (P.T'Image (B) & D'Image (E) & Integer'Image (F (F (4))) & Integer'Image (F (Blue)));
   if B > A and then P.Mk (A, B) /= P.Mk (B, A) then
      Put_Line (D'Image (F (2)));
   end if;
   case F (7) is
      when Red => Put_Line ("red");
      when Blue | Yellow => Put_Line ("other");
   end case;
end Use_Types;
