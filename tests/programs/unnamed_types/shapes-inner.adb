package body Shapes.Inner is
   function Sum return Grade is
   begin
      return Secret + Hidden (Green) - Hidden (Red);
   end Sum;
end Shapes.Inner;
