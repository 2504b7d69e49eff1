with Ada.Text_IO; use Ada.Text_IO;
procedure Knapsack is
   type Thing is (Map, Compass, Water, Sandwich, Tent, Rope, Torch, Camera);
   type Amounts is array (Thing) of Natural;
   Capacity : constant := 25;
   subtype Load is Integer range 0 .. Capacity;
   type Bests is array (Load) of Natural;
   type Table is array (0 .. 8) of Bests;

   Weight : constant Amounts := (1, 2, 9, 4, 12, 5, 3, 6);
   Value  : constant Amounts := (15, 13, 30, 12, 33, 9, 7, 14);
   Best   : Table := (others => Bests'(others => 0));

   function Greater (A, B : Integer) return Integer is
   begin
      if A > B then
         return A;
      else
         return B;
      end if;
   end Greater;

   procedure Fill is
      Row : Integer;
   begin
      for T in Thing loop
         Row := Thing'Pos (T) + 1;
         for L in Load loop
            Best (Row) (L) := Best (Row - 1) (L);
            if Weight (T) <= L then
               Best (Row) (L) := Greater (Best (Row) (L), Best (Row - 1) (L - Weight (T)) + Value (T));
            end if;
         end loop;
      end loop;
   end Fill;

   Left  : Load := Capacity;
   Total : Natural := 0;
begin
   Fill;
   Put_Line ("best" & Natural'Image (Best (8) (Capacity)));
   for T in reverse Thing loop
      if Best (Thing'Pos (T) + 1) (Left) /= Best (Thing'Pos (T)) (Left) then
         Put_Line (Thing'Image (T) & ":" & Natural'Image (Weight (T)) & " kg worth" & Natural'Image (Value (T)));
         Left := Left - Weight (T);
         Total := Total + Value (T);
      end if;
   end loop;
   Put_Line ("packed" & Natural'Image (Total) & ", room left" & Load'Image (Left));
   for Small in 1 .. 5 loop
      Put (Natural'Image (Best (8) (Small)));
   end loop;
   New_Line;
end Knapsack;
