with Ada.Text_IO;
procedure Queens is
   subtype Line is Integer range 1 .. 8;
   type Free_Lines is array (Line) of Boolean;
   type Free_Diagonals is array (-7 .. 16) of Boolean;
   Free      : Free_Lines := (others => True);
   Rising    : Free_Diagonals := (others => True);
   Falling   : Free_Diagonals := (others => True);
   Solutions : Natural := 0;

   procedure Place (Row : Line) is
   begin
      for Column in Line loop
         if Free (Column) and then Rising (Row + Column) and then Falling (Row - Column) then
            if Row = Line'Last then
               Solutions := Solutions + 1;
            else
               Free (Column) := False;
               Rising (Row + Column) := False;
               Falling (Row - Column) := False;
               Place (Row + 1);
               Free (Column) := True;
               Rising (Row + Column) := True;
               Falling (Row - Column) := True;
            end if;
         end if;
      end loop;
   end Place;

begin
   Place (1);
   Ada.Text_IO.Put_Line (Natural'Image (Solutions));
end Queens;
