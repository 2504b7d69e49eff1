with Ada.Text_IO; use Ada.Text_IO;
procedure Nim is
   type Heap is (Left, Middle, Right);
   type Sizes is array (Heap) of Natural;
   type Player is (Machine, Guest);

   Heaps : Sizes := (3, 4, 5);

   function Exclusive (A, B : Natural) return Natural is
      Result : Natural := 0;
      Bit    : Positive := 1;
      X      : Natural := A;
      Y      : Natural := B;
   begin
      while X > 0 or Y > 0 loop
         if X mod 2 /= Y mod 2 then
            Result := Result + Bit;
         end if;
         X := X / 2;
         Y := Y / 2;
         Bit := 2 * Bit;
      end loop;
      return Result;
   end Exclusive;

   function Nim_Sum return Natural is
   begin
      return Exclusive (Heaps (Left), Exclusive (Heaps (Middle), Heaps (Right)));
   end Nim_Sum;

   function Is_Over return Boolean is
   begin
      return Heaps = Sizes'(0, 0, 0);
   end Is_Over;

   procedure Take (H : Heap; Count : Positive; Who : Player) is
   begin
      Heaps (H) := Heaps (H) - Count;
      Put_Line (Player'Image (Who) & " takes" & Integer'Image (Count) & " from " & Heap'Image (H) & ":" & Natural'Image (Heaps (Left)) & Natural'Image (Heaps (Middle)) & Natural'Image (Heaps (Right)));
   end Take;

   procedure Best_Move is
      Wanted : Natural;
   begin
      for H in Heap loop
         Wanted := Exclusive (Heaps (H), Nim_Sum);
         if Wanted < Heaps (H) then
            Take (H, Heaps (H) - Wanted, Machine);
            return;
         end if;
      end loop;
      for H in Heap loop
         if Heaps (H) > 0 then
            Take (H, 1, Machine);
            return;
         end if;
      end loop;
   end Best_Move;

   procedure Guest_Move (Round : Positive) is
      H : Heap := Heap'Val (Round mod 3);
   begin
      while Heaps (H) = 0 loop
         if H = Heap'Last then
            H := Heap'First;
         else
            H := Heap'Succ (H);
         end if;
      end loop;
      Take (H, 1 + (Round * Heaps (H)) mod Heaps (H), Guest);
   end Guest_Move;

   Round : Positive := 1;
begin
   Put_Line ("nim sum" & Natural'Image (Nim_Sum));
   Game : loop
      Best_Move;
      if Is_Over then
         Put_Line (Player'Image (Machine) & " wins");
         exit Game;
      end if;
      Guest_Move (Round);
      if Is_Over then
         Put_Line (Player'Image (Guest) & " wins");
         exit Game;
      end if;
      Round := Round + 1;
   end loop Game;
   Put_Line ("rounds" & Positive'Image (Round));
end Nim;
