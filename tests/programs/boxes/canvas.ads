package Canvas is
   Width  : constant := 24;
   Height : constant := 9;
   subtype Column is Integer range 1 .. Width;
   subtype Line is Integer range 1 .. Height;
   type Ink is (Blank, Dash, Bar, Corner, Dot);
   procedure Clear;
   procedure Box (Left, Right : Column; Top, Bottom : Line);
   procedure Slope (From : Column; Down : Line);
   procedure Print;
end Canvas;
