package Aa.B is
   procedure Twice;
   function Seen return T;
private
   Copy : T := Hidden;
end Aa.B;
