package Shapes is
   type Kind is (Square, Rectangle, Frame);
   type Shape is record
      Is_A   : Kind;
      Width  : Positive;
      Height : Positive;
   end record;
   function Area (S : Shape) return Natural;
   function Made return Natural;
private
   Count : Natural := 0;
   Border : constant := 1;
end Shapes;
