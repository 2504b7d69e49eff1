with Account;
procedure Semaphore is
begin
   null;
end Semaphore;
