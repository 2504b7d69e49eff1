with Scales;
use Scales;
package Shapes is
   type Colour is (Red, Green, Blue);
   type Grade is range 0 .. 100;
   type Point is record
      X, Y : Integer;
   end record;
   procedure Move (It : in out Point; By : Distance);
   procedure Show (It : Point);
   function Next (C : Colour) return Colour;
   function Next (G : Grade) return Grade;
   function Last return Colour;
   function Last return Grade;
private
   Secret : constant Grade := 42;
   function Hidden (C : Colour) return Grade;
end Shapes;
