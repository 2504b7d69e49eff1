with Ada.Text_IO; use Ada.Text_IO;
procedure Sudoku is
   Side : constant := 4;
   subtype Place is Integer range 0 .. Side - 1;
   subtype Digit is Integer range 0 .. Side;
   type Row is array (Place) of Digit;
   type Grid is array (Place) of Row;

   Puzzle : Grid :=
     (Row'(0, 0, 3, 0), Row'(3, 0, 0, 2), Row'(0, 3, 0, 0), Row'(0, 0, 2, 0));
   Tries  : Natural := 0;
   Found  : Natural := 0;

   function Fits (R, C : Place; D : Digit) return Boolean is
      Top  : constant Place := R - R mod 2;
      Left : constant Place := C - C mod 2;
   begin
      for I in Place loop
         if Puzzle (R) (I) = D or else Puzzle (I) (C) = D
           or else Puzzle (Top + I / 2) (Left + I mod 2) = D
         then
            return False;
         end if;
      end loop;
      return True;
   end Fits;

   procedure Show is
   begin
      for R in Place loop
         for C in Place loop
            Put (Digit'Image (Puzzle (R) (C)));
         end loop;
         New_Line;
      end loop;
   end Show;

   procedure Solve (From : Natural) is
      R, C : Place;
   begin
      if From = Side * Side then
         Found := Found + 1;
         if Found = 1 then
            Show;
         end if;
         return;
      end if;
      R := From / Side;
      C := From mod Side;
      if Puzzle (R) (C) /= 0 then
         Solve (From + 1);
         return;
      end if;
      for D in 1 .. Side loop
         Tries := Tries + 1;
         if Fits (R, C, D) then
            Puzzle (R) (C) := D;
            Solve (From + 1);
            Puzzle (R) (C) := 0;
         end if;
      end loop;
   end Solve;
begin
   Solve (0);
   Put_Line ("solutions" & Natural'Image (Found) & ", tries" & Natural'Image (Tries));
end Sudoku;
