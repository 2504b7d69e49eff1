with Ada.Text_IO; use Ada.Text_IO;
procedure Indexed_Prefixes is
   type C is (Red, Green, Blue);
   type Row is array (C) of Integer;
   type Rows is array (4 .. 6) of Row;
   type Tables is array (Boolean) of Rows;
   type Cell is record
      Values : Row;
      Others_Of : Rows;
   end record;
   type Cells is array (1 .. 2) of Cell;
   V : Rows;
   W : Tables;
   D : Cells;
   N : Integer := 5;
   S : array (W (False)'Range) of Integer;

   function Count (X : Row) return Integer is
   begin
      return X'Length + V (N)'Length;
   end Count;
begin
   Put_Line (Integer'Image (V (N)'Length) & Integer'Image (W (N > 5)'First) & Integer'Image (W (V (N)'First = Red)'Last) & Integer'Image (S'Last));
   for I in V (N - 1)'Range loop
      Put (C'Image (I));
      Put (Integer'Image (W (True) (C'Pos (I) + 4)'Length));
   end loop;
   New_Line;
   for I in reverse D (V (4)'Length - 1).Others_Of'Range loop
      D (1).Others_Of (I) (D (2).Values'First) := I * D (1).Others_Of (I)'Length;
      Put (Integer'Image (D (1).Others_Of (I) (Red)));
   end loop;
   New_Line;
   if N = W (True)'First then
      Put_Line ("first");
   elsif N = V (4)'Length then
      Put_Line ("length");
   elsif N /= W (False)'Last then
      Put_Line ("between");
   end if;
   if N in W (True)'Range and Green in D (1).Values'First .. V (6)'Last then
      Put_Line (Integer'Image (Count (V (N))));
   end if;
end Indexed_Prefixes;
