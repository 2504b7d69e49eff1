with Ada.Text_IO; use Ada.Text_IO;
procedure Quick_Sort is
   subtype Index is Integer range 0 .. 99;
   type Table is array (Index) of Integer;

   T        : Table;
   Seed     : Integer := 12345;
   Deepest  : Natural := 0;
   Compared : Natural := 0;

   function Next return Integer is
   begin
      Seed := (Seed * 1103 + 12721) mod 65521;
      return Seed;
   end Next;

   function Less (A, B : Integer) return Boolean is
   begin
      Compared := Compared + 1;
      return A < B;
   end Less;

   procedure Sort (Low, High, Depth : Integer) is
      I     : Integer := Low;
      J     : Integer := High;
      Pivot : Integer;
      Kept  : Integer;
   begin
      if Depth > Deepest then
         Deepest := Depth;
      end if;
      if Low >= High then
         return;
      end if;
      Pivot := T ((Low + High) / 2);
      loop
         while Less (T (I), Pivot) loop
            I := I + 1;
         end loop;
         while Less (Pivot, T (J)) loop
            J := J - 1;
         end loop;
         if I <= J then
            Kept := T (I);
            T (I) := T (J);
            T (J) := Kept;
            I := I + 1;
            J := J - 1;
         end if;
         exit when I > J;
      end loop;
      Sort (Low, J, Depth + 1);
      Sort (I, High, Depth + 1);
   end Sort;

   Wrong : Natural := 0;
begin
   for I in Index loop
      T (I) := Next;
   end loop;
   Put_Line ("first" & Integer'Image (T (0)) & ", last" & Integer'Image (T (99)));
   Sort (T'First, T'Last, 1);
   for I in Index'First .. Index'Last - 1 loop
      if T (I) > T (I + 1) then
         Wrong := Wrong + 1;
      end if;
   end loop;
   Put_Line ("least" & Integer'Image (T (0)) & ", greatest" & Integer'Image (T (99)));
   Put_Line ("wrong pairs" & Natural'Image (Wrong));
   Put_Line ("depth" & Natural'Image (Deepest) & ", compared" & Natural'Image (Compared));
end Quick_Sort;
