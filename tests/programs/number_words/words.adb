with Ada.Text_IO; use Ada.Text_IO;
package body Words is
   procedure Say_Small (Number : Positive) is
   begin
      case Number is
         when 1  => Put ("one");
         when 2  => Put ("two");
         when 3  => Put ("three");
         when 4  => Put ("four");
         when 5  => Put ("five");
         when 6  => Put ("six");
         when 7  => Put ("seven");
         when 8  => Put ("eight");
         when 9  => Put ("nine");
         when 10 => Put ("ten");
         when 11 => Put ("eleven");
         when 12 => Put ("twelve");
         when 13 => Put ("thirteen");
         when 14 => Put ("fourteen");
         when 15 => Put ("fifteen");
         when 16 => Put ("sixteen");
         when 17 => Put ("seventeen");
         when 18 => Put ("eighteen");
         when 19 => Put ("nineteen");
         when 20 .. 99 =>
            case Number / 10 is
               when 2 => Put ("twenty");
               when 3 => Put ("thirty");
               when 4 => Put ("forty");
               when 5 => Put ("fifty");
               when 6 => Put ("sixty");
               when 7 => Put ("seventy");
               when 8 => Put ("eighty");
               when 9 => Put ("ninety");
               when others => null;
            end case;
            if Number mod 10 /= 0 then
               Put ("-");
               Say_Small (Number mod 10);
            end if;
         when 100 .. 999 =>
            Say_Small (Number / 100);
            Put (" hundred");
            if Number mod 100 /= 0 then
               Put (" and ");
               Say_Small (Number mod 100);
            end if;
         when others =>
            Say_Small (Number / 1000);
            Put (" thousand");
            if Number mod 1000 /= 0 then
               if Number mod 1000 < 100 then
                  Put (" and ");
               else
                  Put (", ");
               end if;
               Say_Small (Number mod 1000);
            end if;
      end case;
   end Say_Small;

   procedure Say (Number : Speakable) is
   begin
      if Number = 0 then
         Put ("zero");
      elsif Number < 0 then
         Put ("minus ");
         Say_Small (-Number);
      else
         Say_Small (Number);
      end if;
      New_Line;
   end Say;
end Words;
