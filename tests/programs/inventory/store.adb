package body Store is
   type Shelf is array (Item) of Amount;
   Shelves : Shelf := (others => 0);

   procedure Receive (What : Item; Count : Amount) is
   begin
      Shelves (What) := Shelves (What) + Count;
   end Receive;

   procedure Deliver (What : Order; How : out Answer; Bill : out Amount) is
      Before : constant Shelf := Shelves;
      Any    : Boolean := False;
   begin
      Bill := 0;
      for I in What'Range loop
         if What (I).Count > 0 then
            Any := True;
            if Shelves (What (I).What) < What (I).Count then
               Shelves := Before;
               Bill := 0;
               How := Too_Few;
               return;
            end if;
            Shelves (What (I).What) := Shelves (What (I).What) - What (I).Count;
            Bill := Bill + What (I).Count * What (I).Price;
         end if;
      end loop;
      if Any then
         How := Delivered;
      else
         How := Empty_Order;
      end if;
   end Deliver;

   function On_Shelf (What : Item) return Amount is
   begin
      return Shelves (What);
   end On_Shelf;
end Store;
