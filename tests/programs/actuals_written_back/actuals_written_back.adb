with Ada.Text_IO; use Ada.Text_IO;
procedure Actuals_Written_Back is
   type Row is array (1 .. 3) of Integer;
   subtype Small is Integer range 0 .. 3;
   V : Row := (10, 20, 30);
   N : Integer := 0;
   X : Integer := 5;
   Y : Integer := 9;
   S : Small := 1;

   function Next return Integer is
   begin
      N := N + 1;
      return N;
   end Next;

   procedure Add (A : in out Integer) is
   begin
      A := A + 1;
   end Add;

   procedure Both (A, B : out Integer) is
   begin
      A := 1;
      B := 2;
   end Both;

   procedure Late (A : in out Integer) is
   begin
      A := 6;
      Put_Line ("inside" & Integer'Image (X));
   end Late;

   --  Whatever stands in the actual, an out parameter isn't checked as it is passed.
   procedure Fresh (A : out Small) is
   begin
      A := 2;
   end Fresh;

   procedure Large (A : out Integer) is
   begin
      A := 4;
      Put_Line ("large");
   end Large;
begin
   --  The index of an in out actual is evaluated for the address and for the value.
   Add (V (Next));
   Put_Line (Integer'Image (V (1)) & Integer'Image (V (2)) & Integer'Image (V (3)) & Integer'Image (N));
   --  From the last to the first.
   Both (X, X);
   Put_Line (Integer'Image (X));
   --  After the return.
   Late (X);
   Put_Line (Integer'Image (X));
   Fresh (Y);
   Put_Line (Integer'Image (Y));
   Large (S);
   Put_Line ("not reached");
end Actuals_Written_Back;
