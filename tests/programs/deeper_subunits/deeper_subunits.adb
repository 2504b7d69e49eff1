with Ada.Text_IO;
procedure Deeper_Subunits is
   X : Integer := 1;
   package_like : Integer := 2;
   procedure S (A : Integer; B : in out Integer);
   function F (N : Integer) return Integer is separate;
   procedure S (A : Integer; B : in out Integer) is separate;
   Y : Integer := 100;
begin
   S (3, X);
   Ada.Text_IO.Put_Line (Integer'Image (X) & Integer'Image (F (5)) & Integer'Image (Y) & Integer'Image (package_like));
end Deeper_Subunits;
