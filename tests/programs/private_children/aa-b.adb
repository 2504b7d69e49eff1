with Aa.P;
package body Aa.B is
   procedure Twice is
   begin
      Bump;
      Aa.Bump;
      P.Note (Hidden);
   end Twice;
   function Seen return T is
   begin
      return Copy + P.Last;
   end Seen;
end Aa.B;
