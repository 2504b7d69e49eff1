with Ada.Text_IO;
with Early;
procedure Early_Library_Calls is
begin
   Ada.Text_IO.Put_Line ("not reached");
end Early_Library_Calls;
