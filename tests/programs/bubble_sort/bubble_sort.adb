with Ada.Text_IO; use Ada.Text_IO;
procedure Bubble_Sort is
   Size : constant := 12;
   type Numbers is array (1 .. Size) of Integer;

   Values : Numbers := (42, 7, -3, 19, 0, 88, 7, -40, 5, 61, 12, 1);
   Swaps  : Natural := 0;
   Passes : Natural := 0;

   procedure Exchange (A, B : in out Integer) is
      Kept : constant Integer := A;
   begin
      A := B;
      B := Kept;
      Swaps := Swaps + 1;
   end Exchange;

   procedure Sort (Items : in out Numbers) is
      Changed : Boolean := True;
      Last    : Integer := Items'Last;
   begin
      while Changed loop
         Changed := False;
         Passes := Passes + 1;
         for I in Items'First .. Last - 1 loop
            if Items (I) > Items (I + 1) then
               Exchange (Items (I), Items (I + 1));
               Changed := True;
            end if;
         end loop;
         Last := Last - 1;
      end loop;
   end Sort;

   function Is_Sorted (Items : Numbers) return Boolean is
   begin
      for I in Items'First .. Items'Last - 1 loop
         if Items (I) > Items (I + 1) then
            return False;
         end if;
      end loop;
      return True;
   end Is_Sorted;

   procedure Show (Items : Numbers) is
   begin
      for I in Items'Range loop
         Put (Integer'Image (Items (I)));
      end loop;
      New_Line;
   end Show;

begin
   Show (Values);
   Put_Line ("sorted: " & Boolean'Image (Is_Sorted (Values)));
   Sort (Values);
   Show (Values);
   Put_Line ("sorted: " & Boolean'Image (Is_Sorted (Values)));
   Put_Line ("swaps" & Natural'Image (Swaps) & ", passes" & Natural'Image (Passes));
end Bubble_Sort;
