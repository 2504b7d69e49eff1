package Counts is
   Sum  : Integer := 0;
   Turn : Integer := 0;
end Counts;
