with Ada.Text_IO;
package body Journal is
   Count : Natural := 0;

   procedure Note (Step : Integer) is
   begin
      Count := Count + 1;
      Ada.Text_IO.Put_Line ("step" & Integer'Image (Step));
   end Note;

   function Notes return Natural is
   begin
      return Count;
   end Notes;
begin
   Note (0);
end Journal;
