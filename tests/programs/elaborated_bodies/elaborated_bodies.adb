with Y;
procedure Elaborated_Bodies is
begin
   Y.Go;
end Elaborated_Bodies;
