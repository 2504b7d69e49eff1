package Workers is
   Count : constant := 8;
   task Producer with Priority => 8;
   task Consumer with Priority => 12;
end Workers;
