with Counter;
procedure Wrong is
begin
   Counter.Subtract (1);
end Wrong;
