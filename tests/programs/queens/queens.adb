with Ada.Text_IO; use Ada.Text_IO;
procedure Queens is
   Board_Size : constant := 8;
   subtype Line is Integer range 1 .. Board_Size;
   type Columns is array (Line) of Line;
   type Free_Lines is array (Line) of Boolean;
   type Free_Sums is array (2 .. 2 * Board_Size) of Boolean;
   type Free_Differences is array (1 - Board_Size .. Board_Size - 1) of Boolean;

   Column_In   : Columns := (others => 1);
   Free        : Free_Lines := (others => True);
   Rising      : Free_Sums := (others => True);
   Falling     : Free_Differences := (others => True);
   Solutions   : Natural := 0;
   Tries       : Natural := 0;

   procedure Show is
   begin
      for Row in Line loop
         for Column in Line loop
            if Column_In (Row) = Column then
               Put ("Q");
            else
               Put (".");
            end if;
         end loop;
         New_Line;
      end loop;
   end Show;

   procedure Place (Row : Line) is
   begin
      for Column in Line loop
         Tries := Tries + 1;
         if Free (Column) and then Rising (Row + Column) and then Falling (Row - Column) then
            Column_In (Row) := Column;
            Free (Column) := False;
            Rising (Row + Column) := False;
            Falling (Row - Column) := False;
            if Row = Line'Last then
               Solutions := Solutions + 1;
               if Solutions = 1 then
                  Show;
               end if;
            else
               Place (Row + 1);
            end if;
            Free (Column) := True;
            Rising (Row + Column) := True;
            Falling (Row - Column) := True;
         end if;
      end loop;
   end Place;

begin
   Place (1);
   Put_Line ("solutions" & Natural'Image (Solutions));
   Put_Line ("tries" & Natural'Image (Tries));
end Queens;
