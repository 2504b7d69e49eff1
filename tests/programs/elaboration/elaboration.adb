with Ada.Text_IO;
with Extras, Journal, Parts, Registry;
procedure Elaboration is
begin
   Ada.Text_IO.Put_Line ("main");
   Ada.Text_IO.Put_Line (Integer'Image (Parts.Wheel) & Integer'Image (Parts.Door) & Integer'Image (Extras.Roof));
   Ada.Text_IO.Put_Line (Integer'Image (Registry.Total) & Integer'Image (Journal.Notes));
end Elaboration;
