package body Aa.P is
   procedure Note (X : T) is
   begin
      Last := X;
   end Note;
end Aa.P;
