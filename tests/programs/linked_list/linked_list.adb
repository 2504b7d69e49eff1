with Ada.Text_IO; use Ada.Text_IO;
procedure Linked_List is
   Most : constant := 12;
   type Link is range 0 .. Most;
   Nil : constant Link := 0;

   type Cell is record
      Item : Integer;
      Next : Link;
   end record;
   type Cells is array (1 .. Most) of Cell;

   type List is record
      First  : Link;
      Length : Natural;
   end record;

   Memory : Cells;
   Free   : Link := 1;

   function At_Link (L : Link) return Integer is
   begin
      return Memory (Integer (L)).Item;
   end At_Link;

   function After (L : Link) return Link is
   begin
      return Memory (Integer (L)).Next;
   end After;

   procedure Allocate (Item : Integer; Next : Link; Where : out Link) is
   begin
      Where := Free;
      Free := After (Free);
      Memory (Integer (Where)) := (Item, Next);
   end Allocate;

   procedure Give_Back (Where : Link) is
   begin
      Memory (Integer (Where)).Next := Free;
      Free := Where;
   end Give_Back;

   procedure Prepend (L : in out List; Item : Integer) is
   begin
      Allocate (Item, L.First, L.First);
      L.Length := L.Length + 1;
   end Prepend;

   procedure Remove_First (L : in out List) is
      Gone : constant Link := L.First;
   begin
      L.First := After (Gone);
      Give_Back (Gone);
      L.Length := L.Length - 1;
   end Remove_First;

   procedure Turn (L : in out List) is
      Done : Link := Nil;
      Rest : Link := L.First;
      Next : Link;
   begin
      while Rest /= Nil loop
         Next := After (Rest);
         Memory (Integer (Rest)).Next := Done;
         Done := Rest;
         Rest := Next;
      end loop;
      L.First := Done;
   end Turn;

   procedure Show (L : List) is
      Here : Link := L.First;
   begin
      Put (Natural'Image (L.Length) & ":");
      while Here /= Nil loop
         Put (Integer'Image (At_Link (Here)));
         Here := After (Here);
      end loop;
      New_Line;
   end Show;

   function Free_Cells return Natural is
      Count : Natural := 0;
      Here  : Link := Free;
   begin
      while Here /= Nil loop
         Count := Count + 1;
         Here := After (Here);
      end loop;
      return Count;
   end Free_Cells;

   A, B : List := (Nil, 0);
begin
   for I in 1 .. Most - 1 loop
      Memory (I).Next := Link (I + 1);
   end loop;
   Memory (Most).Next := Nil;

   for I in 1 .. 6 loop
      Prepend (A, I * I);
   end loop;
   Prepend (B, -1);
   Show (A);
   Turn (A);
   Show (A);
   Remove_First (A);
   Remove_First (A);
   Show (A);
   for I in 1 .. 5 loop
      Prepend (B, I);
   end loop;
   Show (B);
   Put_Line ("free" & Natural'Image (Free_Cells));
   while B.Length > 0 loop
      Remove_First (B);
   end loop;
   Show (B);
   Put_Line ("free" & Natural'Image (Free_Cells));
end Linked_List;
