with Workers;
procedure Producer_Consumer is
begin
   null;
end Producer_Consumer;
