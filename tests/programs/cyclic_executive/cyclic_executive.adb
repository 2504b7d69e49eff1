with Executive;
procedure Cyclic_Executive is
begin
   null;
end Cyclic_Executive;
