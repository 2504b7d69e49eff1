with Drifting;
procedure Drift is
begin
   null;
end Drift;
