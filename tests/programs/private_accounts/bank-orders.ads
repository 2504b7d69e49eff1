package Bank.Orders is
   procedure Pay (From, To : in out Account; Amount : Natural; Times : Positive; Paid : out Natural);
end Bank.Orders;
