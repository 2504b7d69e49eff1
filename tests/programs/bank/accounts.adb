package body Accounts is
   type Account is record
      In_Use : Boolean;
      Holds  : Money;
   end record;
   type Ledger is array (Account_Number) of Account;

   Book : Ledger := (others => Account'(False, 0));
   Last_Opened : Integer range 0 .. 10 := 0;

   procedure Open (Number : out Account_Number; Is_Open : out Boolean) is
   begin
      if Last_Opened = 10 then
         Number := 1;
         Is_Open := False;
      else
         Last_Opened := Last_Opened + 1;
         Number := Account_Number (Last_Opened);
         Book (Number) := (True, 0);
         Is_Open := True;
      end if;
   end Open;

   procedure Deposit (Number : Account_Number; Amount : Money; How : out Result) is
   begin
      if not Book (Number).In_Use then
         How := No_Such_Account;
      elsif Amount <= 0 then
         How := Bad_Amount;
      else
         Book (Number).Holds := Book (Number).Holds + Amount;
         How := Done;
      end if;
   end Deposit;

   procedure Withdraw (Number : Account_Number; Amount : Money; How : out Result) is
   begin
      if not Book (Number).In_Use then
         How := No_Such_Account;
      elsif Amount <= 0 then
         How := Bad_Amount;
      elsif Amount > Book (Number).Holds then
         How := Not_Enough;
      else
         Book (Number).Holds := Book (Number).Holds - Amount;
         How := Done;
      end if;
   end Withdraw;

   procedure Transfer (From, To : Account_Number; Amount : Money; How : out Result) is
   begin
      if not Book (To).In_Use then
         How := No_Such_Account;
         return;
      end if;
      Withdraw (From, Amount, How);
      if How = Done then
         Deposit (To, Amount, How);
      end if;
   end Transfer;

   function Balance (Number : Account_Number) return Money is
   begin
      return Book (Number).Holds;
   end Balance;

   function Total return Money is
      Sum : Money := 0;
   begin
      for N in Account_Number loop
         Sum := Sum + Book (N).Holds;
      end loop;
      return Sum;
   end Total;
end Accounts;
