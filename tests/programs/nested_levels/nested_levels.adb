with Ada.Text_IO; use Ada.Text_IO;
procedure Nested_Levels is
   X : Integer := 1;
   procedure A (N : Integer; Sum : in out Integer) is
      Y : Integer := N * 10;
      function B (K : Integer) return Integer is
         Z : Integer := K + Y;
         procedure C is
         begin
            X := X + 1;
            Y := Y + Z;
            if K > 0 then
               A (N - 1, Y);
            end if;
         end C;
      begin
         C;
         return Z + Y;
      end B;
   begin
      if N > 0 then
         Sum := Sum + B (N);
      end if;
      Put_Line (Integer'Image (N) & Integer'Image (Y) & Integer'Image (X));
   end A;
   S : Integer := 0;
begin
   A (4, S);
   Put_Line (Integer'Image (S) & Integer'Image (X));
end Nested_Levels;
