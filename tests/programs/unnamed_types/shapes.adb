with Ada.Text_IO;
package body Shapes is
   procedure Move (It : in out Point; By : Distance) is separate;

   procedure Show (It : Point) is
   begin
      Ada.Text_IO.Put_Line (Integer'Image (It.X) & Integer'Image (It.Y));
   end Show;

   function Next (C : Colour) return Colour is
   begin
      case C is
         when Red =>
            return Green;
         when Green =>
            return Blue;
         when Blue =>
            return Red;
      end case;
   end Next;

   function Next (G : Grade) return Grade is
   begin
      return G + 1;
   end Next;

   function Last return Colour is
   begin
      return Blue;
   end Last;

   function Last return Grade is
   begin
      return 99;
   end Last;

   function Hidden (C : Colour) return Grade is
   begin
      if C = Red then return Secret / 2; end if; return Secret;
   end Hidden;
end Shapes;
