with Stages;
procedure Pipeline is
begin
   null;
end Pipeline;
