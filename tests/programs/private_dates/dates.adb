with Ada.Text_IO; use Ada.Text_IO;

package body Dates is
   type Lengths is array (Month) of Date;
   Length : constant Lengths := (31, 28, 31, 30, 31, 30, 31, 31, 30, 31, 30, 31);

   function On (Day : Positive; M : Month) return Date is
      D : Date := Date (Day);
   begin
      for N in Month range Jan .. M loop
         exit when N = M;
         D := D + Length (N);
      end loop;
      return D;
   end On;

   function Days_Between (From, To : Date) return Integer is
   begin
      return Integer (To) - Integer (From);
   end Days_Between;

   procedure Advance (D : in out Date; Days : Natural) is
   begin
      D := D + Date (Days);
   end Advance;

   procedure Show (D : Date) is
      Left : Date := D;
   begin
      for M in Month loop
         if Left <= Length (M) then
            Put_Line (Month'Image (M) & Date'Image (Left));
            return;
         end if;
         Left := Left - Length (M);
      end loop;
   end Show;
end Dates;
