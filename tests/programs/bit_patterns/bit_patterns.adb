with Ada.Text_IO; use Ada.Text_IO;
procedure Bit_Patterns is
   Width : constant := 16;
   subtype Place is Integer range 0 .. Width - 1;
   type Bits is array (Place) of Boolean;
   type Operation is (Conjunction, Disjunction, Exclusion);
   subtype Word is Integer range 0 .. 2 ** Width - 1;

   function Bits_Of (W : Word) return Bits is
      Result : Bits;
      Rest   : Natural := W;
   begin
      for P in Place loop
         Result (P) := Rest mod 2 = 1;
         Rest := Rest / 2;
      end loop;
      return Result;
   end Bits_Of;

   function Word_Of (B : Bits) return Word is
      Result : Natural := 0;
   begin
      for P in reverse Place loop
         Result := 2 * Result + Boolean'Pos (B (P));
      end loop;
      return Result;
   end Word_Of;

   function Combined (A, B : Word; How : Operation) return Word is
      Left  : constant Bits := Bits_Of (A);
      Right : constant Bits := Bits_Of (B);
      Both  : Bits;
   begin
      for P in Place loop
         case How is
            when Conjunction => Both (P) := Left (P) and Right (P);
            when Disjunction => Both (P) := Left (P) or Right (P);
            when Exclusion   => Both (P) := Left (P) xor Right (P);
         end case;
      end loop;
      return Word_Of (Both);
   end Combined;

   function Shifted (W : Word; Left : Integer) return Word is
      From   : constant Bits := Bits_Of (W);
      Result : Bits := (others => False);
   begin
      for P in Place loop
         if P - Left in Place then
            Result (P) := From (P - Left);
         end if;
      end loop;
      return Word_Of (Result);
   end Shifted;

   procedure Show (W : Word) is
      B : constant Bits := Bits_Of (W);
   begin
      for P in reverse Place loop
         Put (" " & Boolean'Image (B (P)));
         exit when P = Width - 4;
      end loop;
      Put_Line (Word'Image (W));
   end Show;

   Mask : Word := 16#F0F0#;
begin
   for How in Operation loop
      Put (Operation'Image (How) & ":");
      Show (Combined (Mask, 2#1010_1010_1010_1010#, How));
   end loop;
   Show (Shifted (Mask, 3));
   Show (Shifted (Mask, -4));
   Show (Shifted (Shifted (Mask, -16), 16));
   Mask := Combined (Mask, 16#FFFF#, Exclusion);
   Show (Mask);
   Put_Line (Boolean'Image (Word_Of (Bits_Of (54321)) = 54321));
end Bit_Patterns;
