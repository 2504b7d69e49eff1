with Ada.Text_IO; use Ada.Text_IO;
procedure Copied_Parts is
   type V is array (1 .. 3) of Integer;
   type R is record
      A : V;
      N : Integer;
   end record;
   type G is array (0 .. 1) of R;
   X : G;
   procedure P (A : in out R; B : in out V; C : out Integer) is
      K : R := A;
   begin
      A.N := A.N + 1;
      B := (B (3), B (2), B (1));
      A.A := K.A;
      C := A.N;
   end P;
   function F (A : R) return V is
   begin
      return A.A;
   end F;
   Z : V;
   procedure Show is
   begin
      for I in X'Range loop
         for J in X (I).A'Range loop
            Put (Integer'Image (X (I).A (J)));
         end loop;
         Put_Line (Integer'Image (X (I).N));
      end loop;
   end Show;
begin
   for I in 0 .. 1 loop
      X (I).A := (1 + I, 2 + I, 3 + I);
      X (I).N := I;
   end loop;
   Show;
   P (X (0), X (1).A, X (1).N);
   Show;
   Z := F (X (0));
   X (1) := X (0);
   X (0).A := (others => Z (2));
   Show;
   Put_Line (Boolean'Image (X (0) = X (1)) & Boolean'Image (F (X (1)) = Z));
   X (Z (1)).A (Z (3)) := 77;
   Show;
   X (Z (2)).N := 1;
end Copied_Parts;
