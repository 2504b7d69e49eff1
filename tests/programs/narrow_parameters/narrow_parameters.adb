with Ada.Text_IO; use Ada.Text_IO;
procedure Narrow_Parameters is
   subtype S is Integer range 1 .. 5;
   type A is array (S range 2 .. 4) of S;
   X : A := (others => 3);
   I : Integer := 2;
   procedure Q (Y : in out S) is
   begin
      Y := Y + 1;
   end Q;
   procedure O (Y : out Integer) is
   begin
      Y := 9;
   end O;
begin
   Q (X (2));
   Q (X (I));
   Put_Line (Integer'Image (X (2)));
   O (I);
   Put_Line (Integer'Image (I));
   X (3) := S (I mod 5);
   Put_Line (Integer'Image (X (3)));
   O (X (4));
   Put_Line ("not here");
end Narrow_Parameters;
