with Ada.Text_IO; use Ada.Text_IO;
procedure Edit_Distance is
   type Letter is (A, B, C, D, E, F, G, H, I, J, K, L, M, N, O, P, Q, R, S, T, U, V, W, X, Y, Z);
   Longest : constant := 10;
   subtype Length is Integer range 0 .. Longest;
   type Letters is array (1 .. Longest) of Letter;
   type Word is record
      Last : Length;
      Text : Letters;
   end record;
   type Costs is array (Length) of Natural;
   type Grid is array (Length) of Costs;

   function Less (Left, Right : Natural) return Natural is
   begin
      if Left < Right then
         return Left;
      end if;
      return Right;
   end Less;

   function Distance (From, To : Word) return Natural is
      Cost : Grid;
      Here : Natural;
   begin
      for Row in 0 .. From.Last loop
         Cost (Row) (0) := Row;
      end loop;
      for Column in 0 .. To.Last loop
         Cost (0) (Column) := Column;
      end loop;
      for Row in 1 .. From.Last loop
         for Column in 1 .. To.Last loop
            Here := Cost (Row - 1) (Column - 1);
            if From.Text (Row) /= To.Text (Column) then
               Here := Here + 1;
            end if;
            Here := Less (Here, Cost (Row - 1) (Column) + 1);
            Here := Less (Here, Cost (Row) (Column - 1) + 1);
            Cost (Row) (Column) := Here;
         end loop;
      end loop;
      return Cost (From.Last) (To.Last);
   end Distance;

   procedure Show (Item : Word) is
   begin
      for Place in 1 .. Item.Last loop
         Put (Letter'Image (Item.Text (Place)));
      end loop;
   end Show;

   procedure Tell (From, To : Word) is
   begin
      Show (From);
      Put (" to ");
      Show (To);
      Put_Line (":" & Natural'Image (Distance (From, To)));
   end Tell;

   Kitten   : constant Word := (6, Letters'(K, I, T, T, E, N, A, A, A, A));
   Sitting  : constant Word := (7, Letters'(S, I, T, T, I, N, G, A, A, A));
   Saturday : constant Word := (8, Letters'(S, A, T, U, R, D, A, Y, A, A));
   Sunday   : constant Word := (6, Letters'(S, U, N, D, A, Y, A, A, A, A));
   Empty    : constant Word := (0, Letters'(others => A));
begin
   Tell (Kitten, Sitting);
   Tell (Saturday, Sunday);
   Tell (Sunday, Sunday);
   Tell (Empty, Kitten);
   Tell (Sitting, Empty);
end Edit_Distance;
