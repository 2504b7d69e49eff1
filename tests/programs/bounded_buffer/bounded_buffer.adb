with Ada.Text_IO;
with Buffers;
procedure Bounded_Buffer is
begin
   Ada.Text_IO.Put_Line ("room for" & Integer'Image (Buffers.Size));
end Bounded_Buffer;
