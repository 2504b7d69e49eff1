package body Units is
   function Speed_Of (M : Metres; S : Seconds) return Speed is
   begin
      return Speed (M) / Speed (S);
   end Speed_Of;

   function Way (V : Speed; S : Seconds) return Metres is
   begin
      return Metres (V) * Metres (S);
   end Way;
end Units;
