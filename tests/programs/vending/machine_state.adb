with Ada.Text_IO;
package body Machine_State is
   type Prices is array (Drink) of Cents;
   type Stocks is array (Drink) of Natural;
   type Worths is array (Coin) of Cents;

   Price : constant Prices := (50, 70, 120, 150);
   Worth : constant Worths := (5, 10, 20, 50, 100);
   Stock : Stocks := (1, 2, 2, 1);
   Here  : State := Idle;
   Sum   : Cents := 0;

   procedure Change is
   begin
      for C in reverse Coin loop
         while Sum >= Worth (C) loop
            Ada.Text_IO.Put (" " & Coin'Image (C));
            Sum := Sum - Worth (C);
         end loop;
      end loop;
      Ada.Text_IO.New_Line;
   end Change;

   procedure Insert (C : Coin) is
   begin
      case Here is
         when Idle | Paying =>
            Here := Paying;
            Sum := Sum + Worth (C);
         when Serving | Broken =>
            Ada.Text_IO.Put_Line ("coin falls through");
      end case;
   end Insert;

   procedure Choose (D : Drink) is
   begin
      if Here /= Paying then
         Ada.Text_IO.Put_Line ("pay first");
      elsif Stock (D) = 0 then
         Ada.Text_IO.Put_Line ("no " & Drink'Image (D));
      elsif Sum < Price (D) then
         Ada.Text_IO.Put_Line (Drink'Image (D) & " is" & Cents'Image (Price (D) - Sum) & " more");
      else
         Here := Serving;
         Stock (D) := Stock (D) - 1;
         Sum := Sum - Price (D);
         Ada.Text_IO.Put (Drink'Image (D) & ", change:");
         Change;
         Here := Idle;
         for Any in Drink loop
            if Stock (Any) > 0 then
               return;
            end if;
         end loop;
         Here := Broken;
      end if;
   end Choose;

   procedure Cancel is
   begin
      if Here = Paying then
         Ada.Text_IO.Put ("back:");
         Change;
         Here := Idle;
      end if;
   end Cancel;

   function Now return State is
   begin
      return Here;
   end Now;

   function Paid return Cents is
   begin
      return Sum;
   end Paid;
end Machine_State;
