package Accounts is
   type Money is range -1_000_000_00 .. 1_000_000_00;
   type Account_Number is range 1 .. 10;
   type Result is (Done, No_Such_Account, Not_Enough, Bad_Amount);

   procedure Open (Number : out Account_Number; Is_Open : out Boolean);
   procedure Deposit (Number : Account_Number; Amount : Money; How : out Result);
   procedure Withdraw (Number : Account_Number; Amount : Money; How : out Result);
   procedure Transfer (From, To : Account_Number; Amount : Money; How : out Result);
   function Balance (Number : Account_Number) return Money;
   function Total return Money;
end Accounts;
