package body Stack is
   type Cells is array (1 .. Capacity) of Integer;
   Cell  : Cells;
   Depth : Natural range 0 .. Capacity := 0;

   procedure Push (Item : Integer) is
   begin
      Depth := Depth + 1;
      Cell (Depth) := Item;
   end Push;

   procedure Pop (Item : out Integer) is
   begin
      Item := Top;
      Depth := Depth - 1;
   end Pop;

   function Top return Integer is
   begin
      return Cell (Depth);
   end Top;

   function Is_Empty return Boolean is
   begin
      return Depth = 0;
   end Is_Empty;

   function Is_Full return Boolean is
   begin
      return Depth = Capacity;
   end Is_Full;

   procedure Clear is
   begin
      Depth := 0;
   end Clear;
end Stack;
