with Ada.Text_IO; use Ada.Text_IO;
with Heaps;
procedure Heap_Sort is
   Item : Integer;
begin
   for I in 1 .. Heaps.Capacity loop
      Heaps.Insert ((I * I * 3 + 5 * I) mod 31);
      if not Heaps.Is_Heap then
         Put_Line ("no heap after" & Integer'Image (I));
      end if;
   end loop;
   Put_Line ("size" & Natural'Image (Heaps.Size));
   while Heaps.Size > 0 loop
      Heaps.Remove (Item);
      Put (Integer'Image (Item));
      if not Heaps.Is_Heap then
         Put_Line ("no heap");
      end if;
   end loop;
   New_Line;
end Heap_Sort;
