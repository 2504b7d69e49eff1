package Stack is
   Capacity : constant := 5;
   procedure Push (Item : Integer);
   procedure Pop (Item : out Integer);
   function Top return Integer;
   function Is_Empty return Boolean;
   function Is_Full return Boolean;
   procedure Clear;
end Stack;
