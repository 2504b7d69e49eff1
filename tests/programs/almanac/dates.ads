package Dates is
   type Weekday is (Monday, Tuesday, Wednesday, Thursday, Friday, Saturday, Sunday);
   subtype Weekend is Weekday range Saturday .. Sunday;
   type Month is (January, February, March, April, May, June, July, August, September, October, November, December);
   subtype Year is Integer range 1583 .. 9999;
   subtype Day is Integer range 1 .. 31;

   function Is_Leap (Y : Year) return Boolean;
   function Days_In (M : Month; Y : Year) return Day;
   function Day_Of_Year (D : Day; M : Month; Y : Year) return Positive;
   function Weekday_Of (D : Day; M : Month; Y : Year) return Weekday;
end Dates;
