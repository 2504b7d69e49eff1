with Ada.Text_IO;
with Channel; use Channel;
package body Workers is
   --  The numbers 27, 82, .. of Collatz's row.
   task body Producer is
      N : Integer := 27;
   begin
      for I in 1 .. Count loop
         Free.Wait;
         Full.Set (N);
         if N mod 2 = 0 then
            N := N / 2;
         else
            N := 3 * N + 1;
         end if;
      end loop;
   end Producer;

   task body Consumer is
      Sum : Integer := 0;
   begin
      for I in 1 .. Count loop
         Full.Wait;
         Sum := Sum + Full.Item;
         Ada.Text_IO.Put_Line (Integer'Image (I) & ":" & Integer'Image (Full.Item) & ", in all" & Integer'Image (Sum));
         Free.Set;
      end loop;
   end Consumer;
end Workers;
