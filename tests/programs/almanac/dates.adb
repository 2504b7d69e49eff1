package body Dates is
   function Is_Leap (Y : Year) return Boolean is
   begin
      return Y mod 4 = 0 and (Y mod 100 /= 0 or Y mod 400 = 0);
   end Is_Leap;

   function Days_In (M : Month; Y : Year) return Day is
   begin
      case M is
         when April | June | September | November =>
            return 30;
         when February =>
            if Is_Leap (Y) then
               return 29;
            end if;
            return 28;
         when January | March | May | July .. August | October | December =>
            return 31;
      end case;
   end Days_In;

   function Day_Of_Year (D : Day; M : Month; Y : Year) return Positive is
      Count : Natural := 0;
   begin
      if M /= January then
         for Before in January .. Month'Pred (M) loop
            Count := Count + Days_In (Before, Y);
         end loop;
      end if;
      return Count + D;
   end Day_Of_Year;

   function Weekday_Of (D : Day; M : Month; Y : Year) return Weekday is
      Before : constant Integer := Y - 1;
      Days   : constant Integer :=
        365 * Before + Before / 4 - Before / 100 + Before / 400 + Day_Of_Year (D, M, Y);
   begin
      return Weekday'Val ((Days - 1) mod 7);
   end Weekday_Of;
end Dates;
