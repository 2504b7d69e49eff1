with Ada.Text_IO; use Ada.Text_IO;
package body Canvas is
   type Row is array (Column) of Ink;
   type Page is array (Line) of Row;
   Sheet : Page;

   procedure Clear is
   begin
      Sheet := (others => Row'(others => Blank));
   end Clear;

   procedure Dot_At (C, L : Integer) is
   begin
      if C in Column and then L in Line and then Sheet (L) (C) = Blank then
         Sheet (L) (C) := Dot;
      end if;
   end Dot_At;

   procedure Box (Left, Right : Column; Top, Bottom : Line) is
   begin
      for C in Left .. Right loop
         Sheet (Top) (C) := Dash;
         Sheet (Bottom) (C) := Dash;
      end loop;
      for L in Top .. Bottom loop
         Sheet (L) (Left) := Bar;
         Sheet (L) (Right) := Bar;
      end loop;
      Sheet (Top) (Left) := Corner;
      Sheet (Top) (Right) := Corner;
      Sheet (Bottom) (Left) := Corner;
      Sheet (Bottom) (Right) := Corner;
   end Box;

   procedure Slope (From : Column; Down : Line) is
      C : Integer := From;
   begin
      for L in Down .. Height loop
         Dot_At (C, L);
         C := C + 2;
      end loop;
   end Slope;

   procedure Print is
      Last : Natural;
   begin
      for L in Line loop
         Last := 0;
         for C in Column loop
            if Sheet (L) (C) /= Blank then
               Last := C;
            end if;
         end loop;
         for C in 1 .. Last loop
            case Sheet (L) (C) is
               when Blank  => Put (" ");
               when Dash   => Put ("-");
               when Bar    => Put ("|");
               when Corner => Put ("+");
               when Dot    => Put (".");
            end case;
         end loop;
         New_Line;
      end loop;
   end Print;
begin
   Clear;
end Canvas;
