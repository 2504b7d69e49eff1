private package Shapes.Inner is
   function Sum return Grade;
end Shapes.Inner;
