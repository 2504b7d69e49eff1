with Lights;
procedure Crossing is
begin
   null;
end Crossing;
