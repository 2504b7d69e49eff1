with Ada.Text_IO; use Ada.Text_IO;
procedure Copies is
   type Triple is array (1 .. 3) of Integer;
   type Pair is record
      Left  : Triple;
      Right : Triple;
   end record;

   A, B : Triple := (1, 2, 3);
   P    : Pair;
   X, Y : Integer := 1;

   procedure Change_Copy (T : Triple; Seen : out Integer) is
   begin
      A (1) := 100;
      Seen := T (1);
   end Change_Copy;

   procedure Rotate (T : in out Triple) is
      First : constant Integer := T (1);
   begin
      T (1) := T (2);
      T (2) := T (3);
      T (3) := First;
   end Rotate;

   procedure Both (M : in out Integer; N : in out Integer) is
   begin
      M := M + 10;
      N := N + 100;
   end Both;

   procedure Fill (T : out Triple; With_Value : Integer) is
   begin
      T := (others => With_Value);
   end Fill;

   function Doubled (T : Triple) return Triple is
      Result : Triple := T;
   begin
      for I in Result'Range loop
         Result (I) := 2 * Result (I);
      end loop;
      return Result;
   end Doubled;

   procedure Show (T : Triple) is
   begin
      Put_Line (Integer'Image (T (1)) & Integer'Image (T (2)) & Integer'Image (T (3)));
   end Show;
begin
   A (2) := 20;
   Show (A);
   Show (B);
   Change_Copy (B, X);
   Put_Line (Integer'Image (X) & Integer'Image (A (1)));
   Rotate (A);
   Show (A);
   P.Left := A;
   P.Right := Doubled (A);
   Rotate (P.Right);
   Show (P.Left);
   Show (P.Right);
   Fill (P.Left, 7);
   Show (P.Left);
   Y := 2;
   Both (X, Y);
   Put_Line (Integer'Image (X) & Integer'Image (Y));
   Both (A (1), A (2));
   Show (A);
   B := A;
   Put_Line (Boolean'Image (A = B) & " " & Boolean'Image (P.Left = P.Right));
   B (3) := B (3) + 1;
   Put_Line (Boolean'Image (A = B) & " " & Boolean'Image (A /= B));
   P := Pair'(A, B);
   declare
      Q : Pair := P;
   begin
      Put_Line (Boolean'Image (P = Q));
      Q.Left (1) := 0;
      Put_Line (Boolean'Image (P = Q));
      Show (P.Left);
   end;
end Copies;
