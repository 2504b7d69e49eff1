package body Aa is
   Inner : T := 1;
   function Get return T is
   begin
      return V + Hidden + Inner;
   end Get;
   procedure Bump is
   begin
      Inner := Inner + 1;
      Hidden := Hidden + 1;
   end Bump;
end Aa;
