with Ada.Text_IO; use Ada.Text_IO;
with Fractions;

procedure Private_Rationals is
   use type Fractions.Fraction;
   Total : Fractions.Fraction := Fractions.Make (0, 1);
   Half : constant Fractions.Fraction := Fractions.Make (-3, -6);
begin
   for N in 1 .. 8 loop
      Total := Fractions.Sum (Total, Fractions.Make (1, N));
      Fractions.Show (Total);
      New_Line;
   end loop;
   if Half = Fractions.Inverse (Fractions.Make (2, 1)) then
      Put_Line ("reduced");
   end if;
   if Fractions.Product (Half, Total) /= Total and then Fractions.Is_Less (Half, Total) then
      Fractions.Show (Fractions.Product (Half, Total));
      New_Line;
   end if;
   Fractions.Show (Fractions.Inverse (Fractions.Make (0, 5)));
end Private_Rationals;
