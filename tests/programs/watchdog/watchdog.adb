with Dog;
procedure Watchdog is
begin
   null;
end Watchdog;
