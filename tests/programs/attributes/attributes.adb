with Ada.Text_IO; use Ada.Text_IO;
procedure Attributes is
   type C is (aLpha, Beta, GAMMA);
   subtype S is C range Beta .. Gamma;
   type T is range -5 .. 5;
   subtype U is T range -2 .. 2;
   type A is array (S) of U;
   V : A := (-1, 2);
   W : array (T range -1 .. 1) of Boolean := (True, False, True);
   N : constant := 2 ** 40 / 3;
   K : constant Integer := -7;
begin
   Put_Line (C'Image (S'First) & C'Image (S'Last) & Integer'Image (S'Pos (Gamma)) & C'Image (S'Val (0)) & C'Image (S'Pred (Beta)));
   Put_Line (T'Image (U'First) & T'Image (T'Succ (U'Last)) & Integer'Image (V'Length) & S'Image (A'Last) & T'Image (W'First));
   Put_Line (Integer'Image (K mod 3) & Integer'Image (K rem 3) & Integer'Image (K / 2) & Integer'Image (abs K) & Integer'Image (K ** 3) & Integer'Image (-K ** 2));
   Put_Line (Integer'Image (N mod 1000) & Boolean'Image (K in Natural) & Boolean'Image (Beta not in S) & Boolean'Image (False < True));
   for I in reverse W'Range loop
      Put (T'Image (I) & Boolean'Image (W (I)));
   end loop;
   New_Line;
   for I in 5 .. 4 loop
      Put_Line ("never");
   end loop;
   Outer : for I in C loop
      for J in 1 .. 3 loop
         exit Outer when C'Pos (I) = 1 and J = 2;
         Put (C'Image (I) & Integer'Image (J));
      end loop;
   end loop Outer;
   New_Line;
   V (Gamma) := U'Succ (V (Gamma));
   Put_Line (U'Image (V (Gamma)));
end Attributes;
