with Ada.Text_IO;
with Lists;
procedure Merge_Sort is
   use Lists;
   Merges : Natural := 0;

   function Merged (A, B : List) return List is
      Result : List;
      I, J   : Integer := 1;
   begin
      Clear (Result);
      Merges := Merges + 1;
      while I <= A.Used and then J <= B.Used loop
         if A.Items (I) <= B.Items (J) then
            Append (Result, A.Items (I));
            I := I + 1;
         else
            Append (Result, B.Items (J));
            J := J + 1;
         end if;
      end loop;
      while I <= A.Used loop
         Append (Result, A.Items (I));
         I := I + 1;
      end loop;
      while J <= B.Used loop
         Append (Result, B.Items (J));
         J := J + 1;
      end loop;
      return Result;
   end Merged;

   function Sorted (L : List) return List is
      Left, Right : List;
   begin
      if L.Used <= 1 then
         return L;
      end if;
      Clear (Left);
      Clear (Right);
      for I in 1 .. L.Used loop
         if I mod 2 = 0 then
            Append (Left, L.Items (I));
         else
            Append (Right, L.Items (I));
         end if;
      end loop;
      return Merged (Sorted (Left), Sorted (Right));
   end Sorted;

   L : List;
begin
   Clear (L);
   Show (Sorted (L));
   for I in reverse 1 .. 16 loop
      Append (L, (I * 7) mod 17 - 8);
   end loop;
   Show (L);
   Show (Sorted (L));
   while not Is_Full (L) loop
      Append (L, L.Used);
   end loop;
   Show (Sorted (L));
   Ada.Text_IO.Put_Line ("merges" & Natural'Image (Merges));
end Merge_Sort;
