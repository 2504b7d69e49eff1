with Ada.Text_IO; use Ada.Text_IO;
with Symbols; use Symbols;

procedure Private_Symbols is
   type Cast is array (1 .. 6) of Symbol;
   Seen : Cast;
   One, Two : Symbol;
begin
   Seen (1) := Intern (Word'(A, B, C));
   Seen (2) := Intern (Word'(B, A, D));
   Seen (3) := Intern (Word'(F, A, D));
   Seen (4) := Intern (Word'(A, B, C));
   Seen (5) := Intern (Word'(C, A, B));
   Seen (6) := Intern (Word'(B, A, D));
   for I in Seen'Range loop
      Spell (Seen (I));
      for J in 1 .. I - 1 loop
         if Seen (J) = Seen (I) then
            Put_Line ("as" & Integer'Image (J));
         end if;
      end loop;
   end loop;
   Put_Line ("known" & Integer'Image (Known));
   One := Seen (1);
   Two := Symbol (Seen (2));
   if One /= Two then
      Seen (1) := Two;
      Seen (2) := One;
   end if;
   Spell (Seen (1));
   Spell (Seen (2));
end Private_Symbols;
