with Canvas; use Canvas;
procedure Boxes is
begin
   Box (1, Column'Last, 1, Line'Last);
   Box (4, 10, 3, 7);
   Box (8, 20, 5, 8);
   Slope (3, 2);
   Slope (15, 1);
   Print;
   Clear;
   Box (2, 2, 1, 3);
   Print;
end Boxes;
