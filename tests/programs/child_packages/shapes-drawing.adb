with Ada.Text_IO; use Ada.Text_IO;
package body Shapes.Drawing is
   procedure Draw (S : Shape) is
      function Is_Inside (Row, Column : Positive) return Boolean is
      begin
         return Row in Border + 1 .. S.Height - Border and then Column in Border + 1 .. S.Width - Border;
      end Is_Inside;
   begin
      for Row in 1 .. S.Height loop
         for Column in 1 .. S.Width loop
            if S.Is_A = Frame and then Is_Inside (Row, Column) then
               Put (" ");
            else
               Put ("*");
            end if;
         end loop;
         New_Line;
      end loop;
   end Draw;
end Shapes.Drawing;
