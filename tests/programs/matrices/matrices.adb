with Ada.Text_IO; use Ada.Text_IO;
procedure Matrices is
   subtype Index is Integer range 1 .. 4;
   type Row is array (Index) of Integer;
   type Matrix is array (Index) of Row;

   Zero : constant Matrix := (others => Row'(others => 0));
   Magic : constant Matrix :=
     (Row'(16, 3, 2, 13), Row'(5, 10, 11, 8), Row'(9, 6, 7, 12), Row'(4, 15, 14, 1));

   function Identity return Matrix is
      M : Matrix := Zero;
   begin
      for I in Index loop
         M (I) (I) := 1;
      end loop;
      return M;
   end Identity;

   function Transposed (M : Matrix) return Matrix is
      T : Matrix;
   begin
      for I in Index loop
         for J in Index loop
            T (J) (I) := M (I) (J);
         end loop;
      end loop;
      return T;
   end Transposed;

   function Product (A, B : Matrix) return Matrix is
      P : Matrix := Zero;
   begin
      for I in Index loop
         for J in Index loop
            for K in Index loop
               P (I) (J) := P (I) (J) + A (I) (K) * B (K) (J);
            end loop;
         end loop;
      end loop;
      return P;
   end Product;

   function Power (M : Matrix; N : Natural) return Matrix is
      P : Matrix := Identity;
   begin
      for I in 1 .. N loop
         P := Product (P, M);
      end loop;
      return P;
   end Power;

   procedure Show (M : Matrix) is
   begin
      for I in M'Range loop
         for J in M (I)'Range loop
            Put (Integer'Image (M (I) (J)));
         end loop;
         New_Line;
      end loop;
   end Show;

   function Is_Magic (M : Matrix) return Boolean is
      Wanted, Down, Across, Slope : Integer := 0;
   begin
      for I in Index loop
         Wanted := Wanted + M (I) (I);
         Slope := Slope + M (I) (5 - I);
      end loop;
      for I in Index loop
         Down := 0;
         Across := 0;
         for J in Index loop
            Down := Down + M (J) (I);
            Across := Across + M (I) (J);
         end loop;
         if Down /= Wanted or else Across /= Wanted then
            return False;
         end if;
      end loop;
      return Slope = Wanted;
   end Is_Magic;

begin
   Show (Product (Magic, Magic));
   Show (Transposed (Magic));
   Put_Line (Boolean'Image (Is_Magic (Magic)) & " " & Boolean'Image (Is_Magic (Product (Magic, Magic))));
   Put_Line (Boolean'Image (Transposed (Transposed (Magic)) = Magic));
   Put_Line (Boolean'Image (Product (Identity, Magic) /= Magic));
   Show (Power (Magic, 3));
end Matrices;
