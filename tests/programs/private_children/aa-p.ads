private package Aa.P is
   Last : T := Hidden;
   procedure Note (X : T);
end Aa.P;
