with Ada.Text_IO;
with Goods, Store;
procedure Inventory is
   use Goods;
   Wanted : Order := (others => Line'(Bolt, 0, 0));
   How    : Answer;
   Bill   : Amount;

   procedure Try is
   begin
      Store.Deliver (Wanted, How, Bill);
      Ada.Text_IO.Put (Answer'Image (How) & Amount'Image (Bill) & " :");
      for I in Item loop
         Ada.Text_IO.Put (Amount'Image (Store.On_Shelf (I)));
      end loop;
      Ada.Text_IO.New_Line;
   end Try;
begin
   Try;
   for I in Item loop
      Store.Receive (I, 10 * Item'Pos (I) + 5);
   end loop;
   Wanted := (Line'(Bolt, 5, 2), Line'(Gear, 1, 150), Line'(Nut, 0, 9));
   Try;
   Try;
   Wanted (1) := Line'(Spring, 30, 1);
   Wanted (3) := Wanted (1);
   Wanted (3).Count := 6;
   Try;
   Wanted (3).Count := 5;
   Try;
end Inventory;
