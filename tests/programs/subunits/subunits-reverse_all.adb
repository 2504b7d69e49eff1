separate (Subunits)
procedure Reverse_All is
   procedure Exchange (A, B : in out Integer) is
      Kept : constant Integer := A;
   begin
      A := B;
      B := Kept;
   end Exchange;
begin
   Calls := Calls + 1;
   for I in 1 .. Size / 2 loop
      Exchange (Data (I), Data (Size + 1 - I));
   end loop;
end Reverse_All;
