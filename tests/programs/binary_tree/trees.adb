with Ada.Text_IO; use Ada.Text_IO;
package body Trees is
   Most : constant := 50;
   subtype Link is Integer range 0 .. Most;
   None : constant Link := 0;

   type Node is record
      Key         : Integer;
      Left, Right : Link;
   end record;
   type Nodes is array (1 .. Most) of Node;

   Pool : Nodes;
   Used : Link := 0;
   Root : Link := None;

   function Fresh (Key : Integer) return Link is
   begin
      Used := Used + 1;
      Pool (Used) := (Key, None, None);
      return Used;
   end Fresh;

   procedure Insert_Under (Tree : in out Link; Key : Integer) is
   begin
      if Tree = None then
         Tree := Fresh (Key);
      elsif Key < Pool (Tree).Key then
         Insert_Under (Pool (Tree).Left, Key);
      elsif Key > Pool (Tree).Key then
         Insert_Under (Pool (Tree).Right, Key);
      end if;
   end Insert_Under;

   procedure Insert (Key : Integer) is
   begin
      Insert_Under (Root, Key);
   end Insert;

   function Contains (Key : Integer) return Boolean is
      Here : Link := Root;
   begin
      while Here /= None loop
         if Pool (Here).Key = Key then
            return True;
         elsif Key < Pool (Here).Key then
            Here := Pool (Here).Left;
         else
            Here := Pool (Here).Right;
         end if;
      end loop;
      return False;
   end Contains;

   function Height_Of (Tree : Link) return Natural is
      Left, Right : Natural;
   begin
      if Tree = None then
         return 0;
      end if;
      Left := Height_Of (Pool (Tree).Left);
      Right := Height_Of (Pool (Tree).Right);
      if Left > Right then
         return Left + 1;
      end if;
      return Right + 1;
   end Height_Of;

   function Height return Natural is
   begin
      return Height_Of (Root);
   end Height;

   function Size return Natural is
   begin
      return Used;
   end Size;

   procedure Show_In_Order is
      procedure Visit (Tree : Link) is
      begin
         if Tree /= None then
            Visit (Pool (Tree).Left);
            Put (Integer'Image (Pool (Tree).Key));
            Visit (Pool (Tree).Right);
         end if;
      end Visit;
   begin
      Visit (Root);
      New_Line;
   end Show_In_Order;

   procedure Show_Shape is
      procedure Visit (Tree : Link; Depth : Natural) is
      begin
         if Tree /= None then
            Visit (Pool (Tree).Right, Depth + 1);
            for I in 1 .. Depth loop
               Put ("   ");
            end loop;
            Put_Line (Integer'Image (Pool (Tree).Key));
            Visit (Pool (Tree).Left, Depth + 1);
         end if;
      end Visit;
   begin
      Visit (Root, 0);
   end Show_Shape;
end Trees;
