with Shapes.Measures;
package body Shapes is
   function Area (S : Shape) return Natural is
   begin
      return Measures.Surface (S);
   end Area;

   function Made return Natural is
   begin
      return Count;
   end Made;
end Shapes;
