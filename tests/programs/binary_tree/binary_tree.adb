with Ada.Text_IO; use Ada.Text_IO;
with Trees;
procedure Binary_Tree is
begin
   Put_Line ("height" & Natural'Image (Trees.Height));
   for I in 1 .. 12 loop
      Trees.Insert ((I * 5) mod 13);
   end loop;
   Trees.Insert (5);
   Trees.Show_In_Order;
   Trees.Show_Shape;
   Put_Line ("size" & Natural'Image (Trees.Size) & ", height" & Natural'Image (Trees.Height));
   for K in -1 .. 1 loop
      Put_Line (Boolean'Image (Trees.Contains (K)));
   end loop;
   Put_Line (Boolean'Image (Trees.Contains (12)) & " " & Boolean'Image (Trees.Contains (13)));
end Binary_Tree;
