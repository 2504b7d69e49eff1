package Queues is
   type Item is private;
   type Queue is private;

   function Job (Number, Weight : Natural) return Item;
   function Number (I : Item) return Natural;
   procedure Reset (Q : out Queue);
   procedure Enter (Q : in out Queue; I : Item);
   procedure Leave (Q : in out Queue; I : out Item);
   function Waiting (Q : Queue) return Natural;
private
   type Item is record
      Number, Weight : Natural;
   end record;

   subtype Place is Integer range 0 .. 6;
   type Items is array (Place) of Item;

   type Queue is record
      First : Place;
      Count : Integer range 0 .. 7;
      Waits : Items;
   end record;
end Queues;
