package Shapes.Makers is
   function New_Square (Side : Positive) return Shape;
   function New_Frame (Width, Height : Positive) return Shape;
end Shapes.Makers;
