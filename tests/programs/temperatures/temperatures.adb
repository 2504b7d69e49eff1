with Ada.Text_IO; use Ada.Text_IO;
procedure Temperatures is
   -- In tenths of a degree.
   type Celsius is range -2_731 .. 20_000;
   type Fahrenheit is range -4_597 .. 40_000;
   type Day is (Mon, Tue, Wed, Thu, Fri, Sat, Sun);
   type Week is array (Day) of Celsius;

   Measured : constant Week := (-35, 12, 0, 78, 105, 99, -4);

   function Converted (C : Celsius) return Fahrenheit is
   begin
      return Fahrenheit (C * 9 / 5 + 320);
   end Converted;

   procedure Put_Tenths (Tenths : Integer) is
   begin
      if Tenths < 0 then
         Put (" -");
      else
         Put ("  ");
      end if;
      if abs Tenths < 100 then
         Put (" ");
      end if;
      Put (Integer'Image (abs Tenths / 10) & ".");
      case abs Tenths mod 10 is
         when 0 => Put ("0");
         when 1 => Put ("1");
         when 2 => Put ("2");
         when 3 => Put ("3");
         when 4 => Put ("4");
         when 5 => Put ("5");
         when 6 => Put ("6");
         when 7 => Put ("7");
         when 8 => Put ("8");
         when others => Put ("9");
      end case;
   end Put_Tenths;

   Sum     : Celsius := 0;
   Coldest : Day := Mon;
   Frost   : Natural := 0;
begin
   for D in Day loop
      Put (Day'Image (D));
      Put_Tenths (Integer (Measured (D)));
      Put_Tenths (Integer (Converted (Measured (D))));
      New_Line;
      Sum := Sum + Measured (D);
      if Measured (D) < Measured (Coldest) then
         Coldest := D;
      end if;
      if Measured (D) < 0 then
         Frost := Frost + 1;
      end if;
   end loop;
   Put_Line ("coldest on " & Day'Image (Coldest) & ", frost on" & Natural'Image (Frost));
   Put ("mean");
   Put_Tenths (Integer (Sum / Week'Length));
   New_Line;
   Put_Line (Celsius'Image ((-35) / 10) & Celsius'Image ((-35) mod 10) & Celsius'Image ((-35) rem 10));
end Temperatures;
