with Ada.Text_IO; use Ada.Text_IO;
procedure Beyond_Subtypes is
   type Digit is range 0 .. 9;
   type Shade is (Dark, Grey, Light);
   subtype Dull is Shade range Dark .. Grey;
   subtype Pair is Integer range 1 .. 2;
   type Row is array (1 .. 3) of Integer;
   type Rows is array (Pair) of Row;
   Last : Digit := 9;
   Top : Integer := 2147483647;
   One : Integer := 1;
   Five : Integer := 5;
   G : Shade := Grey;
   V : Rows;

   function Told return Integer is
   begin
      Put_Line ("told");
      return 7;
   end Told;

   --  What a static left operand decides keeps its right one from being reached.
   Off : Boolean := False and then (One = 1 / 0 and then One = 2 ** (-1));
   On : Boolean := True or else One = 1 mod 0;
begin
   --  No check stands behind Succ, Pred and Val of integer types, nor on the argument of Image.
   Put_Line (Digit'Image (Digit'Succ (Last)) & Digit'Image (Digit'Succ (9)) & Digit'Image (Digit'Pred (0)) & Digit'Image (Digit'Val (11)));
   Put_Line (Pair'Image (Five) & Dull'Image (Light) & Shade'Image (Dull'Succ (G)) & Integer'Image (Top + 1));
   --  The prefix of an array's attribute isn't evaluated.
   Put_Line (Integer'Image (V (Told)'Length) & Integer'Image (V (Told)'First + V (Told)'Last));
   Put_Line (Boolean'Image (Off) & Boolean'Image (On));
   Last := Digit'Succ (Last);
   Put_Line ("not reached");
end Beyond_Subtypes;
