with Ada.Text_IO; use Ada.Text_IO;
procedure Roman_Numerals is
   subtype Writable is Positive range 1 .. 3_999;
   type Symbol is (M, CM, D, CD, C, XC, L, XL, X, IX, V, IV, I);
   type Values is array (Symbol) of Writable;
   Worth : constant Values := (1000, 900, 500, 400, 100, 90, 50, 40, 10, 9, 5, 4, 1);

   procedure Write (Number : Writable) is
      Rest : Natural := Number;
   begin
      for S in Symbol loop
         while Rest >= Worth (S) loop
            Put (Symbol'Image (S));
            Rest := Rest - Worth (S);
         end loop;
      end loop;
   end Write;

   function Signs (Number : Writable) return Positive is
      Rest  : Natural := Number;
      Count : Natural := 0;
   begin
      for S in Symbol loop
         loop
            exit when Rest < Worth (S);
            Rest := Rest - Worth (S);
            case S is
               when CM | CD | XC | XL | IX | IV =>
                  Count := Count + 2;
               when others =>
                  Count := Count + 1;
            end case;
         end loop;
      end loop;
      return Count;
   end Signs;

   Longest : Writable := 1;
begin
   for Number in 1 .. 20 loop
      Write (Number);
      if Number mod 10 = 0 then
         New_Line;
      else
         Put (" ");
      end if;
   end loop;
   Write (1994);
   New_Line;
   Write (2026);
   New_Line;
   Write (Writable'Last);
   New_Line;
   for Number in Writable loop
      if Signs (Number) > Signs (Longest) then
         Longest := Number;
      end if;
   end loop;
   Put (Writable'Image (Longest) & " is ");
   Write (Longest);
   New_Line;
end Roman_Numerals;
