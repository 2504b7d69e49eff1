with Ada.Text_IO; use Ada.Text_IO;

package body Symbols is
   subtype Taken is Symbol range 1 .. 40;
   type Words is array (Taken) of Word;
   type Links is array (Symbol) of Symbol;

   Table : Words;
   Next : Links := (others => 0);
   Last : Symbol := 0;

   function Hash (W : Word) return Symbol is
   begin
      return Symbol (1 + (Letter'Pos (W (1)) * 7 + Letter'Pos (W (2)) * 3 + Letter'Pos (W (3))) mod 5);
   end Hash;

   Heads : Links := (others => 0);

   function Intern (W : Word) return Symbol is
      Bucket : constant Symbol := Hash (W);
      At_Place : Symbol := Heads (Bucket);
   begin
      while At_Place /= 0 loop
         if Table (At_Place) = W then
            return At_Place;
         end if;
         At_Place := Next (At_Place);
      end loop;
      Last := Last + 1;
      Table (Last) := W;
      Next (Last) := Heads (Bucket);
      Heads (Bucket) := Last;
      return Last;
   end Intern;

   procedure Spell (S : Symbol) is
   begin
      if S in Taken then
         for I in Word'Range loop
            Put (Letter'Image (Table (S) (I)));
         end loop;
      else
         Put ("nothing");
      end if;
      New_Line;
   end Spell;

   function Known return Natural is
   begin
      return Natural (Last);
   end Known;
end Symbols;
