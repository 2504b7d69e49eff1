with Ada.Text_IO; use Ada.Text_IO;
with Bank; use Bank;
with Bank.Orders;

procedure Private_Accounts is
   Mine, Yours : Account;
   Went : Result;
   Paid : Natural;

   procedure Show is
   begin
      Put_Line (Integer'Image (Balance (Mine)) & Integer'Image (Balance (Yours)));
   end Show;
begin
   Open (Mine, 1);
   Open (Yours, 2);
   Deposit (Mine, 500, Went);
   Put_Line (Result'Image (Went));
   Withdraw (Mine, 501, Went);
   Put_Line (Result'Image (Went));
   Orders.Pay (Mine, Yours, 150, 5, Paid);
   Put_Line ("paid" & Integer'Image (Paid));
   Show;
   Close (Yours);
   Orders.Pay (Mine, Yours, 25, 1, Paid);
   Put_Line ("paid" & Integer'Image (Paid));
   Deposit (Yours, 1, Went);
   Put_Line (Result'Image (Went));
   Show;
   if Mine = Yours then
      Put_Line ("never");
   end if;
   Mine := Yours;
   if Mine = Yours then
      Put_Line ("the same account");
   end if;
   Open (Mine, 1);
   Deposit (Mine, 9_999, Went);
   Deposit (Mine, 2, Went);
   Put_Line ("never");
end Private_Accounts;
