package Lists is
   Longest : constant := 32;
   subtype Length is Integer range 0 .. Longest;
   subtype Position is Integer range 1 .. Longest;
   type Store is array (Position) of Integer;
   type List is record
      Used  : Length;
      Items : Store;
   end record;

   procedure Clear (L : out List);
   procedure Append (L : in out List; Item : Integer);
   function Is_Full (L : List) return Boolean;
   procedure Show (L : List);
end Lists;
