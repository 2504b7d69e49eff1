with Ada.Text_IO; use Ada.Text_IO;
with Stacks; use Stacks;
with Stacks.Sums; use Stacks.Sums;

procedure Private_Stack is
   S, T : Stack;
   Value : Integer;
begin
   Clear (S);
   Clear (T);
   for I in 1 .. 5 loop
      Push (S, I * I);
   end loop;
   Put_Line ("depth" & Integer'Image (Depth (S)) & ", total" & Integer'Image (Total (S)));
   T := S;
   if S = T then
      Put_Line ("a copy is equal");
   end if;
   Double (T);
   if S /= T then
      Put_Line ("doubled it isn't");
   end if;
   while not Is_Empty (T) loop
      Pop (T, Value);
      Put (Integer'Image (Value));
   end loop;
   New_Line;
   Put_Line ("left:" & Integer'Image (Total (S)));
   for I in 1 .. 20 loop
      Push (T, I);
   end loop;
   Put_Line ("full:" & Integer'Image (Total (T)));
   Push (T, 0);
   Put_Line ("never");
end Private_Stack;
