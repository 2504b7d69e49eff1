with Ada.Text_IO; use Ada.Text_IO;
procedure Polynomials is
   Most : constant := 8;
   subtype Degree is Integer range 0 .. Most;
   type Polynomial is array (Degree) of Integer;
   Zero : constant Polynomial := (others => 0);

   function Value (P : Polynomial; X : Integer) return Integer is
      Result : Integer := 0;
   begin
      for D in reverse Degree loop
         Result := Result * X + P (D);
      end loop;
      return Result;
   end Value;

   function Sum (P, Q : Polynomial) return Polynomial is
      Result : Polynomial;
   begin
      for D in Degree loop
         Result (D) := P (D) + Q (D);
      end loop;
      return Result;
   end Sum;

   function Product (P, Q : Polynomial) return Polynomial is
      Result : Polynomial := Zero;
   begin
      for I in Degree loop
         for J in 0 .. Most - I loop
            Result (I + J) := Result (I + J) + P (I) * Q (J);
         end loop;
      end loop;
      return Result;
   end Product;

   function Derived (P : Polynomial) return Polynomial is
      Result : Polynomial := Zero;
   begin
      for D in 1 .. Most loop
         Result (D - 1) := D * P (D);
      end loop;
      return Result;
   end Derived;

   procedure Show (P : Polynomial) is
      Shown : Boolean := False;
   begin
      for D in reverse Degree loop
         if P (D) /= 0 then
            if P (D) < 0 then
               Put (" -");
            elsif Shown then
               Put (" +");
            end if;
            Shown := True;
            if abs P (D) /= 1 or else D = 0 then
               Put (Integer'Image (abs P (D)));
            end if;
            if D > 0 then
               Put (" x");
            end if;
            if D > 1 then
               Put (" **" & Integer'Image (D));
            end if;
         end if;
      end loop;
      if not Shown then
         Put (" 0");
      end if;
      New_Line;
   end Show;

   P, Q, R : Polynomial := Zero;
begin
   P (0) := -1;
   P (1) := 1;
   Q (0) := 1;
   Q (1) := 1;
   Q (2) := 1;
   R := Product (P, Q);
   Show (P);
   Show (Q);
   Show (R);
   Show (Derived (R));
   Show (Sum (R, Product (Q, Q)));
   Show (Derived (Derived (P)));
   for X in -2 .. 2 loop
      Put (Integer'Image (Value (R, X)));
      if Value (R, X) /= Value (P, X) * Value (Q, X) then
         Put_Line (" wrong");
      end if;
   end loop;
   New_Line;
end Polynomials;
