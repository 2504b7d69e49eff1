with Ada.Text_IO;
with Service;
procedure Server_Task is
   Sum : Integer := 0;
begin
   for N in 1 .. 6 loop
      Sum := Sum + Service.Square (N);
      Ada.Text_IO.Put_Line (Integer'Image (N) & " squares:" & Integer'Image (Sum));
   end loop;
end Server_Task;
