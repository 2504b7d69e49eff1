with Ada.Text_IO;
with Ceilings;
procedure Priority_Ceiling is
   Sum : Integer;
begin
   Ceilings.Steps.Long_Work (3, Sum);
   Ada.Text_IO.Put_Line ("main" & Integer'Image (Sum));
end Priority_Ceiling;
