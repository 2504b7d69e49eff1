package body Bank is
   procedure Open (A : out Account; Owner : Positive) is
   begin
      A := (Active, Owner, 0);
   end Open;

   procedure Close (A : in out Account) is
   begin
      A.Is_In := Ended;
      A.Amount := 0;
   end Close;

   procedure Deposit (A : in out Account; Amount : Natural; Went : out Result) is
   begin
      if A.Is_In /= Active then
         Went := Closed;
         return;
      end if;
      A.Amount := A.Amount + Amount;
      Went := Done;
   end Deposit;

   procedure Withdraw (A : in out Account; Amount : Natural; Went : out Result) is
   begin
      if A.Is_In /= Active then
         Went := Closed;
      elsif Amount > A.Amount then
         Went := Too_Much;
      else
         A.Amount := A.Amount - Amount;
         Went := Done;
      end if;
   end Withdraw;

   function Balance (A : Account) return Natural is
   begin
      return A.Amount;
   end Balance;
end Bank;
