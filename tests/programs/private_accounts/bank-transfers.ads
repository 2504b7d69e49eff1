private package Bank.Transfers is
   procedure Move (From, To : in out Account; Amount : Natural; Went : out Result);
end Bank.Transfers;
