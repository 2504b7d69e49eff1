private package Shapes.Measures is
   function Surface (S : Shape) return Natural;
   function Hole (S : Shape) return Natural;
end Shapes.Measures;
