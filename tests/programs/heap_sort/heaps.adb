package body Heaps is
   type Cells is array (1 .. Capacity) of Integer;
   Heap  : Cells := (others => 0);
   Count : Integer range 0 .. Capacity := 0;

   procedure Swap (I, J : Integer) is
      Kept : constant Integer := Heap (I);
   begin
      Heap (I) := Heap (J);
      Heap (J) := Kept;
   end Swap;

   procedure Insert (Item : Integer) is
      At_Cell : Integer;
   begin
      Count := Count + 1;
      Heap (Count) := Item;
      At_Cell := Count;
      while At_Cell > 1 and then Heap (At_Cell) < Heap (At_Cell / 2) loop
         Swap (At_Cell, At_Cell / 2);
         At_Cell := At_Cell / 2;
      end loop;
   end Insert;

   procedure Remove (Least : out Integer) is
      At_Cell : Integer := 1;
      Child   : Integer;
   begin
      Least := Heap (1);
      Heap (1) := Heap (Count);
      Count := Count - 1;
      loop
         Child := 2 * At_Cell;
         exit when Child > Count;
         if Child < Count and then Heap (Child + 1) < Heap (Child) then
            Child := Child + 1;
         end if;
         exit when Heap (At_Cell) <= Heap (Child);
         Swap (At_Cell, Child);
         At_Cell := Child;
      end loop;
   end Remove;

   function Size return Natural is
   begin
      return Count;
   end Size;

   function Is_Heap return Boolean is
   begin
      for I in 2 .. Count loop
         if Heap (I / 2) > Heap (I) then
            return False;
         end if;
      end loop;
      return True;
   end Is_Heap;
end Heaps;
