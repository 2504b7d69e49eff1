with Ada.Text_IO;
package body Naturals is
   function Trimmed (Digits_In : Digit_List) return Big is
      Result : Big;
   begin
      Result.Digit_At := Digits_In;
      Result.Length := 1;
      for P in reverse Place loop
         if Digits_In (P) /= 0 then
            Result.Length := P;
            exit;
         end if;
      end loop;
      return Result;
   end Trimmed;

   function From (N : Natural) return Big is
      Result : Digit_List := (others => 0);
      Rest   : Natural := N;
      P      : Place := 1;
   begin
      while Rest > 0 loop
         Result (P) := Rest mod 10;
         Rest := Rest / 10;
         P := P + 1;
      end loop;
      return Trimmed (Result);
   end From;

   function Sum (A, B : Big) return Big is
      Result : Digit_List := (others => 0);
      Carry  : Natural := 0;
   begin
      for P in Place loop
         Carry := Carry + A.Digit_At (P) + B.Digit_At (P);
         Result (P) := Carry mod 10;
         Carry := Carry / 10;
      end loop;
      return Trimmed (Result);
   end Sum;

   function Product (A, B : Big) return Big is
      Result : Digit_List := (others => 0);
      Carry  : Natural;
   begin
      for P in 1 .. A.Length loop
         Carry := 0;
         for Q in 1 .. Most_Digits + 1 - P loop
            Carry := Carry + Result (P + Q - 1) + A.Digit_At (P) * B.Digit_At (Q);
            Result (P + Q - 1) := Carry mod 10;
            Carry := Carry / 10;
         end loop;
      end loop;
      return Trimmed (Result);
   end Product;

   function Digit_Sum (A : Big) return Natural is
      Total : Natural := 0;
   begin
      for P in 1 .. A.Length loop
         Total := Total + A.Digit_At (P);
      end loop;
      return Total;
   end Digit_Sum;

   procedure Print (A : Big) is
   begin
      for P in reverse 1 .. A.Length loop
         Ada.Text_IO.Put (Digit'Image (A.Digit_At (P)));
      end loop;
      Ada.Text_IO.New_Line;
   end Print;
end Naturals;
