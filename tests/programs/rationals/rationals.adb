with Ada.Text_IO;
with Fractions; use Fractions;
procedure Rationals is
   Half    : constant Fraction := Make (1, 2);
   Third   : constant Fraction := Make (-2, -6);
   Harmonic : Fraction := Make (0, 1);
begin
   Show (Sum (Half, Third));
   Show (Difference (Half, Third));
   Show (Product (Half, Third));
   Show (Quotient (Half, Third));
   Show (Quotient (Third, Make (-1, 3)));
   Ada.Text_IO.Put_Line (Boolean'Image (Less (Third, Half)));
   Ada.Text_IO.Put_Line (Boolean'Image (Make (3, 9) = Third));
   for I in 1 .. 10 loop
      Harmonic := Sum (Harmonic, Make (1, I));
      Show (Harmonic);
   end loop;
end Rationals;
