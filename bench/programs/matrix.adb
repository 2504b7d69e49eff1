with Ada.Text_IO;
procedure Matrix is
   Size : constant := 24;
   type Row is array (1 .. Size) of Integer;
   type Square is array (1 .. Size) of Row;
   Left, Right, Product : Square;
   Sum, Total           : Integer := 0;
begin
   for I in 1 .. Size loop
      for J in 1 .. Size loop
         Left (I) (J) := (I * J) mod 7;
         Right (I) (J) := (I + J) mod 5;
      end loop;
   end loop;
   for Round in 1 .. 10 loop
      for I in 1 .. Size loop
         for J in 1 .. Size loop
            Sum := 0;
            for K in 1 .. Size loop
               Sum := Sum + Left (I) (K) * Right (K) (J);
            end loop;
            Product (I) (J) := Sum;
         end loop;
      end loop;
   end loop;
   for I in 1 .. Size loop
      for J in 1 .. Size loop
         Total := Total + Product (I) (J);
      end loop;
   end loop;
   Ada.Text_IO.Put_Line (Integer'Image (Total));
end Matrix;
