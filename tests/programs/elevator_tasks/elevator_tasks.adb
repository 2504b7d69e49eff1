with Lift;
procedure Elevator_Tasks is
begin
   null;
end Elevator_Tasks;
