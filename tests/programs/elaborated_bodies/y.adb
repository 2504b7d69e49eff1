with Ada.Text_IO; use Ada.Text_IO;
with X; pragma Elaborate (X);
package body Y is
   B : constant Integer := X.Next;
   procedure Go is
   begin
      Put_Line (Integer'Image (A) & Integer'Image (B));
   end Go;
begin
   Put_Line ("y");
end Y;
