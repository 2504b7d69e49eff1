with Ada.Text_IO;
package body Failing is
   task body Divider is
      N : Integer := 3;
   begin
      loop
         Ada.Text_IO.Put_Line (Integer'Image (12 / N));
         N := N - 1;
      end loop;
   end Divider;

   task body Other is
   begin
      Ada.Text_IO.Put_Line ("never");
   end Other;
end Failing;
