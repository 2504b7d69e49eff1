with Events;
procedure Event_Log is
begin
   null;
end Event_Log;
