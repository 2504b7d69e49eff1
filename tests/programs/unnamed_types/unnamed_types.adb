with Shapes.Tell;
with Scales;
procedure Unnamed_Types is
   use type Scales.Distance;
begin
   if -Scales.Unit + Scales.Twice (Scales.Unit) in 10 .. 11 and not (abs Scales.Unit <= 9) then
      Shapes.Tell;
   end if;
end Unnamed_Types;
