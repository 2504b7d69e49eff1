package Shapes.Drawing is
   procedure Draw (S : Shape);
end Shapes.Drawing;
