with Ada.Text_IO;
procedure Elements is
   type Row is array (1 .. 10) of Integer;
   Cells : Row := (others => 0);
   Turn  : Integer := 0;
begin
   while Turn < 300_000 loop
      Cells (3) := (Cells (4) + Turn) mod 997;
      Cells (4) := Cells (3);
      Turn := Turn + 1;
   end loop;
   Ada.Text_IO.Put_Line (Integer'Image (Cells (4)));
end Elements;
