with Ada.Text_IO; use Ada.Text_IO;
procedure Permutations is
   type Colour is (Red, Green, Blue, White);
   type Order is array (1 .. 4) of Colour;

   Count  : Natural := 0;
   Fixed  : Natural := 0;
   Start  : constant Order := (Red, Green, Blue, White);

   procedure Swap (A, B : in out Colour) is
      Kept : constant Colour := A;
   begin
      A := B;
      B := Kept;
   end Swap;

   function Is_Derangement (O : Order) return Boolean is
   begin
      for I in O'Range loop
         if O (I) = Start (I) then
            return False;
         end if;
      end loop;
      return True;
   end Is_Derangement;

   procedure Visit (O : Order) is
   begin
      Count := Count + 1;
      if Is_Derangement (O) then
         Put (Integer'Image (Count) & ":");
         for I in O'Range loop
            Put (" " & Colour'Image (O (I)));
         end loop;
         New_Line;
      else
         Fixed := Fixed + 1;
      end if;
   end Visit;

   procedure Generate (O : in out Order; Length : Natural) is
   begin
      if Length = 1 then
         Visit (O);
         return;
      end if;
      for I in 1 .. Length loop
         Generate (O, Length - 1);
         if Length mod 2 = 1 then
            Swap (O (1), O (Length));
         else
            Swap (O (I), O (Length));
         end if;
      end loop;
   end Generate;

   Now : Order := Start;
begin
   Generate (Now, Now'Last);
   Put_Line ("permutations" & Natural'Image (Count) & ", with fixed points" & Natural'Image (Fixed));
end Permutations;
