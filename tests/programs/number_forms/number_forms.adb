with Ada.Text_IO; use Ada.Text_IO;
procedure Number_Forms is
   Most : constant := 16#7FFF_FFFF_FFFF_FFFF#;
   type Long is range -Most .. Most;

   procedure Show (A, B, C : Long) is
   begin
      Put_Line (Long'Image (A) & Long'Image (B) & Long'Image (C));
   end Show;
begin
   --  letters in numbers
   Show (1e3, 16#ff#e1, 16#Ff#E0);
   --  zeros and underscores in a base and in an exponent
   Show (0_2#1#, 00000000000000000000016#F#, 1E0_1);
   Show (1E000000000000000000000001, 0_1_0#9#e+0, 0016#F_F#);
   Show (2#1010#E1, 16#FF#, 1_000);
   Show (1E+3, 0E99999999999999999999, 0000_7);
   Show (9E18, Most, 9_223_372_036_854_775_807);
   Show (3#1#E39, 7#0#E99999999999999999999, 10#1#E18);
end Number_Forms;
