with Ada.Text_IO; use Ada.Text_IO;
with Queues; use Queues;

procedure Private_Queue is
   Q : Queue;
   Next, Last : Item;
   Seed : Natural := 7;
begin
   Reset (Q);
   Last := Job (0, 0);
   for N in 1 .. 12 loop
      Seed := (Seed * 5 + 3) mod 16;
      Enter (Q, Job (N, Seed));
      if N mod 3 = 0 then
         Leave (Q, Next);
         Put (Integer'Image (Number (Next)));
         if Next /= Last then
            Last := Next;
         end if;
      end if;
      exit when Waiting (Q) = 7;
   end loop;
   New_Line;
   while Waiting (Q) > 0 loop
      Leave (Q, Next);
      Put (Integer'Image (Number (Next)));
   end loop;
   New_Line;
   if Next = Last then
      Put_Line ("the same");
   else
      Put_Line ("another one");
   end if;
   Leave (Q, Next);
end Private_Queue;
