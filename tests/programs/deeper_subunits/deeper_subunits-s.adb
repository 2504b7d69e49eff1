with Ada.Text_IO; use Ada.Text_IO;
separate (Deeper_Subunits)
procedure S (A : Integer; B : in out Integer) is
   X : Integer := A;
begin
   Deeper_Subunits.X := Deeper_Subunits.X + X;
   B := B + 1;
   Put_Line ("s" & Integer'Image (Deeper_Subunits.X));
end S;
