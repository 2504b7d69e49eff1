with Ada.Text_IO;
procedure Alone is
begin
   Ada.Text_IO.Put_Line ("alone");
end Alone;
