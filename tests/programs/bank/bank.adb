with Ada.Text_IO; use Ada.Text_IO;
with Accounts; use Accounts;
procedure Bank is
   Anna, Bert : Account_Number;
   Opened     : Boolean;
   How        : Result;

   procedure Tell is
   begin
      Put_Line (Result'Image (How) & ", Anna" & Money'Image (Balance (Anna)) & ", Bert" & Money'Image (Balance (Bert)));
   end Tell;
begin
   Open (Anna, Opened);
   Open (Bert, Opened);
   Put_Line (Account_Number'Image (Anna) & Account_Number'Image (Bert) & " " & Boolean'Image (Opened));
   Deposit (Anna, 100_00, How);
   Tell;
   Withdraw (Bert, 1, How);
   Tell;
   Transfer (Anna, Bert, 35_50, How);
   Tell;
   Transfer (Anna, 9, 1, How);
   Tell;
   Deposit (Bert, -5, How);
   Tell;
   Transfer (Bert, Anna, 35_51, How);
   Tell;
   Put_Line ("total" & Money'Image (Total));
   for I in 3 .. 11 loop
      Open (Bert, Opened);
      exit when not Opened;
      Put_Line ("account" & Account_Number'Image (Bert));
   end loop;
   Put_Line (Boolean'Image (Opened));
end Bank;
