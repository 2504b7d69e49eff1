with Limits;
procedure Rate_Limiter is
begin
   null;
end Rate_Limiter;
