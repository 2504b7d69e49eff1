package body Bank.Transfers is
   procedure Move (From, To : in out Account; Amount : Natural; Went : out Result) is
      Before : constant Account := From;
   begin
      Withdraw (From, Amount, Went);
      if Went = Done then
         Deposit (To, Amount, Went);
         if Went /= Done then
            From := Before;
         end if;
      end if;
   end Move;
end Bank.Transfers;
