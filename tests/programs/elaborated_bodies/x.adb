with Ada.Text_IO;
package body X is
   function Next return Integer is
   begin
      N := N * 2;
      return N;
   end Next;
begin
   N := 5;
   Ada.Text_IO.Put_Line ("x");
end X;
