package Heaps is
   -- The least first.
   Capacity : constant := 20;
   procedure Insert (Item : Integer);
   procedure Remove (Least : out Integer);
   function Size return Natural;
   function Is_Heap return Boolean;
end Heaps;
