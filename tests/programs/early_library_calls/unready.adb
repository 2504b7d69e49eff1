with Ada.Text_IO;
procedure Unready is
begin
   Ada.Text_IO.Put_Line ("unready");
end Unready;
