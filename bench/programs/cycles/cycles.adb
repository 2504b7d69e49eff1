with Rates;
procedure Cycles is
begin
   null;
end Cycles;
