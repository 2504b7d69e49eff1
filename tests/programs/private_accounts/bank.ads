package Bank is
   type Account is private;
   type Result is (Done, Too_Much, Closed);

   procedure Open (A : out Account; Owner : Positive);
   procedure Close (A : in out Account);
   procedure Deposit (A : in out Account; Amount : Natural; Went : out Result);
   procedure Withdraw (A : in out Account; Amount : Natural; Went : out Result);
   function Balance (A : Account) return Natural;
private
   type State is (Unused, Active, Ended);

   type Account is record
      Is_In : State;
      Owner : Natural;
      Amount : Integer range 0 .. 10_000;
   end record;
end Bank;
