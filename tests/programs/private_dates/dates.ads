package Dates is
   type Date is private;
   type Month is (Jan, Feb, Mar, Apr, May, Jun, Jul, Aug, Sep, Oct, Nov, Dec);

   function On (Day : Positive; M : Month) return Date;
   function Days_Between (From, To : Date) return Integer;
   procedure Advance (D : in out Date; Days : Natural);
   procedure Show (D : Date);
private
   type Date is range 1 .. 365;
end Dates;
