with Queue;
procedure Buffer is
begin
   null;
end Buffer;
