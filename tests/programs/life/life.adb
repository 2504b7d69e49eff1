with Ada.Text_IO; use Ada.Text_IO;
procedure Life is
   Side : constant := 8;
   subtype Coordinate is Integer range 0 .. Side - 1;
   type Line is array (Coordinate) of Boolean;
   type World is array (Coordinate) of Line;

   Now  : World := (others => Line'(others => False));
   Next : World;

   function Neighbours (Row, Column : Coordinate) return Natural is
      Count : Natural := 0;
   begin
      for Down in -1 .. 1 loop
         for Right in -1 .. 1 loop
            if (Down /= 0 or Right /= 0)
              and then Now ((Row + Down) mod Side) ((Column + Right) mod Side)
            then
               Count := Count + 1;
            end if;
         end loop;
      end loop;
      return Count;
   end Neighbours;

   procedure Step is
   begin
      for Row in Coordinate loop
         for Column in Coordinate loop
            case Neighbours (Row, Column) is
               when 2 =>
                  Next (Row) (Column) := Now (Row) (Column);
               when 3 =>
                  Next (Row) (Column) := True;
               when 0 | 1 | 4 .. Natural'Last =>
                  Next (Row) (Column) := False;
            end case;
         end loop;
      end loop;
      Now := Next;
   end Step;

   procedure Show is
   begin
      for Row in Coordinate loop
         for Column in Coordinate loop
            if Now (Row) (Column) then
               Put ("#");
            else
               Put ("-");
            end if;
         end loop;
         New_Line;
      end loop;
      New_Line;
   end Show;

   Glider : World;
begin
   Now (0) (1) := True;
   Now (1) (2) := True;
   Now (2) := (True, True, True, False, False, False, False, False);
   Glider := Now;
   Show;
   for Generation in 1 .. 4 loop
      Step;
   end loop;
   Show;
   for Generation in 5 .. 4 * Side loop
      Step;
   end loop;
   Put_Line ("back again: " & Boolean'Image (Now = Glider));
end Life;
