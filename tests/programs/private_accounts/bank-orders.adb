with Bank.Transfers;

package body Bank.Orders is
   procedure Pay (From, To : in out Account; Amount : Natural; Times : Positive; Paid : out Natural) is
      Went : Result;
   begin
      Paid := 0;
      for I in 1 .. Times loop
         Transfers.Move (From, To, Amount, Went);
         exit when Went /= Done;
         Paid := Paid + Amount;
      end loop;
   end Pay;
end Bank.Orders;
