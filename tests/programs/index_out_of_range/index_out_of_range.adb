with Ada.Text_IO; use Ada.Text_IO;
procedure Index_Out_Of_Range is
   type Table is array (1 .. 5) of Integer;
   T : Table := (3, 1, 4, 1, 5);

   function Sum_Up_To (Last : Integer) return Integer is
      Sum : Integer := 0;
   begin
      for I in 1 .. Last loop
         Sum := Sum + T (I);
      end loop;
      return Sum;
   end Sum_Up_To;
begin
   for Last in 0 .. 7 loop
      Put_Line (Integer'Image (Sum_Up_To (Last)));
   end loop;
end Index_Out_Of_Range;
