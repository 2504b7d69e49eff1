package Stacks is
   type Stack is private;

   function Is_Empty (S : Stack) return Boolean;
   function Depth (S : Stack) return Natural;
   procedure Clear (S : in out Stack);
   procedure Push (S : in out Stack; Value : Integer);
   procedure Pop (S : in out Stack; Value : out Integer);
private
   type Values is array (1 .. 20) of Integer;

   type Stack is record
      Top : Integer range 0 .. 20;
      Items : Values;
   end record;
end Stacks;
