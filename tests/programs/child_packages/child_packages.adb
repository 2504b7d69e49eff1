with Ada.Text_IO;
with Shapes.Makers, Shapes.Drawing;
procedure Child_Packages is
   use Shapes;
   A : constant Shape := Makers.New_Square (3);
   B : Shape := Makers.New_Frame (5, 4);

   procedure Tell (S : Shape) is
   begin
      Drawing.Draw (S);
      Ada.Text_IO.Put_Line (Kind'Image (S.Is_A) & " of" & Natural'Image (Area (S)));
   end Tell;
begin
   Tell (A);
   Tell (B);
   B.Width := 2;
   Tell (B);
   B := A;
   Ada.Text_IO.Put_Line (Boolean'Image (A = B) & Natural'Image (Shapes.Made));
end Child_Packages;
