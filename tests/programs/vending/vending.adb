with Ada.Text_IO; use Ada.Text_IO;
with Machine_State; use Machine_State;
procedure Vending is
   procedure Tell is
   begin
      Put_Line (State'Image (Now) & Cents'Image (Paid));
   end Tell;
begin
   Choose (Tea);
   Insert (Fifty);
   Insert (Ten);
   Tell;
   Choose (Tea);
   Insert (Twenty);
   Choose (Tea);
   Tell;
   Insert (Euro);
   Insert (Five);
   Cancel;
   Insert (Fifty);
   Choose (Water);
   Insert (Euro);
   Choose (Water);
   Insert (Euro);
   Choose (Cocoa);
   for I in 1 .. 3 loop
      Insert (Euro);
      Insert (Fifty);
      Choose (Coffee);
   end loop;
   Cancel;
   Insert (Euro);
   Choose (Tea);
   Tell;
   Insert (Five);
   Cancel;
end Vending;
