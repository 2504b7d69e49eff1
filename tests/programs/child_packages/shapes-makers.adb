package body Shapes.Makers is
   function Counted (S : Shape) return Shape is
   begin
      Count := Count + 1;
      return S;
   end Counted;

   function New_Square (Side : Positive) return Shape is
   begin
      return Counted (Shape'(Square, Side, Side));
   end New_Square;

   function New_Frame (Width, Height : Positive) return Shape is
   begin
      return Counted (Shape'(Frame, Width, Height));
   end New_Frame;
end Shapes.Makers;
