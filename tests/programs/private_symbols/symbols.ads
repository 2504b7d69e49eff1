package Symbols is
   type Letter is (A, B, C, D, E, F);
   type Word is array (1 .. 3) of Letter;
   type Symbol is private;

   function Intern (W : Word) return Symbol;
   procedure Spell (S : Symbol);
   function Known return Natural;
private
   type Symbol is range 0 .. 40;
end Symbols;
