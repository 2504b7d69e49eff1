package body Early is
begin
   Alone;
   Ready;
   Unready;
end Early;
