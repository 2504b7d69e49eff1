with Ada.Text_IO;
with Stack.Arithmetic;
procedure Stacks is
   use Stack, Stack.Arithmetic;
   Item : Integer;
begin
   -- (3 + 4) * (10 - 2) / 5
   Push (3);
   Push (4);
   Apply (Plus);
   Push (10);
   Push (2);
   Apply (Minus);
   Apply (Times);
   Push (5);
   Apply (Over);
   Ada.Text_IO.Put_Line (Integer'Image (Top));
   Apply (Double);
   Apply (Times);
   Ada.Text_IO.Put_Line (Integer'Image (Top));
   Push (7);
   Apply (Exchange);
   Apply (Minus);
   Pop (Item);
   Ada.Text_IO.Put_Line (Integer'Image (Item) & " " & Boolean'Image (Is_Empty));
   for I in 1 .. 9 loop
      exit when Is_Full;
      Push (I * I);
   end loop;
   while not Is_Empty loop
      Pop (Item);
      Ada.Text_IO.Put (Integer'Image (Item));
   end loop;
   Ada.Text_IO.New_Line;
   Push (1);
   Clear;
   Ada.Text_IO.Put_Line (Boolean'Image (Is_Empty));
end Stacks;
