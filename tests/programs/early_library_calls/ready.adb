with Ada.Text_IO;
procedure Ready is
begin
   Ada.Text_IO.Put_Line ("ready");
end Ready;
