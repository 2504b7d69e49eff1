with Ada.Text_IO; use Ada.Text_IO;
procedure Tic_Tac_Toe is
   type Mark is (Empty, Cross, Nought);
   subtype Player is Mark range Cross .. Nought;
   subtype Cell is Integer range 1 .. 9;
   type Board is array (Cell) of Mark;
   type Triple is array (1 .. 3) of Cell;
   type Triples is array (1 .. 8) of Triple;

   Line : constant Triples :=
     (Triple'(1, 2, 3), Triple'(4, 5, 6), Triple'(7, 8, 9), Triple'(1, 4, 7),
      Triple'(2, 5, 8), Triple'(3, 6, 9), Triple'(1, 5, 9), Triple'(3, 5, 7));

   Looked_At : Natural := 0;

   function Opponent (P : Player) return Player is
   begin
      if P = Cross then
         return Nought;
      end if;
      return Cross;
   end Opponent;

   function Has_Won (B : Board; P : Player) return Boolean is
   begin
      for L in Line'Range loop
         if B (Line (L) (1)) = P and then B (Line (L) (2)) = P and then B (Line (L) (3)) = P then
            return True;
         end if;
      end loop;
      return False;
   end Has_Won;

   function Is_Full (B : Board) return Boolean is
   begin
      for C in Cell loop
         if B (C) = Empty then
            return False;
         end if;
      end loop;
      return True;
   end Is_Full;

   -- What the player to move comes to: 1 wins, 0 draws, -1 loses.
   procedure Search (B : Board; To_Move : Player; Result : out Integer; Move : out Integer) is
      Next   : Board;
      Theirs : Integer;
      Reply  : Integer;
   begin
      Looked_At := Looked_At + 1;
      Move := 0;
      if Has_Won (B, Opponent (To_Move)) then
         Result := -1;
         return;
      elsif Is_Full (B) then
         Result := 0;
         return;
      end if;
      Result := -2;
      for C in Cell loop
         if B (C) = Empty then
            Next := B;
            Next (C) := To_Move;
            Search (Next, Opponent (To_Move), Theirs, Reply);
            if -Theirs > Result then
               Result := -Theirs;
               Move := C;
            end if;
            exit when Result = 1;
         end if;
      end loop;
   end Search;

   procedure Show (B : Board) is
   begin
      for C in Cell loop
         case B (C) is
            when Empty  => Put (".");
            when Cross  => Put ("X");
            when Nought => Put ("O");
         end case;
         if C mod 3 = 0 then
            New_Line;
         end if;
      end loop;
   end Show;

   Game    : Board := (others => Empty);
   To_Move : Player := Cross;
   Result  : Integer;
   Move    : Integer;
begin
   Game (5) := Cross;
   Game (2) := Nought;
   Game (9) := Cross;
   To_Move := Nought;
   Play : loop
      exit Play when Has_Won (Game, Opponent (To_Move)) or else Is_Full (Game);
      Search (Game, To_Move, Result, Move);
      Put_Line (Player'Image (To_Move) & " takes" & Integer'Image (Move) & ", expects" & Integer'Image (Result));
      Game (Move) := To_Move;
      To_Move := Opponent (To_Move);
   end loop Play;
   Show (Game);
   Put_Line ("positions" & Natural'Image (Looked_At));
end Tic_Tac_Toe;
