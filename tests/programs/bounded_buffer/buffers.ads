package Buffers is
   Size : constant := 4;
   subtype Index is Integer range 0 .. Size - 1;
   type Items is array (Index) of Integer;

   --  Items in the order in which they came. Who takes waits for one; who puts is told whether there was room.
   protected Buffer with Priority => 20 is
      procedure Put (Item : Integer; Done : out Boolean);
      entry Wait_For_Item;
      procedure Take (Item : out Integer);
      function Count return Natural;
   private
      Kept     : Items;
      First    : Index := 0;
      Used     : Natural := 0;
      Has_Item : Boolean := False;
   end Buffer;

   task Producer with Priority => 5;
   task Consumer with Priority => 10;

   Last : constant := 9;
end Buffers;
