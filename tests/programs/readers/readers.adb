with Weather;
procedure Readers is
begin
   null;
end Readers;
