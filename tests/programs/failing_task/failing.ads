package Failing is
   task Divider with Priority => 10;
   task Other with Priority => 5;
end Failing;
