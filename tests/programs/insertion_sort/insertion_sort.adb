with Ada.Text_IO; use Ada.Text_IO;
procedure Insertion_Sort is
   type Month is (Jan, Feb, Mar, Apr, May, Jun, Jul, Aug, Sep, Oct, Nov, Dec);
   subtype Day is Integer range 1 .. 31;

   type Date is record
      D : Day;
      M : Month;
      Y : Integer;
   end record;

   type Dates is array (1 .. 7) of Date;

   function Before (A, B : Date) return Boolean is
   begin
      if A.Y /= B.Y then
         return A.Y < B.Y;
      elsif A.M /= B.M then
         return A.M < B.M;
      else
         return A.D < B.D;
      end if;
   end Before;

   procedure Sort (List : in out Dates) is
      Moved : Date;
      Hole  : Integer;
   begin
      for I in List'First + 1 .. List'Last loop
         Moved := List (I);
         Hole := I;
         while Hole > List'First and then Before (Moved, List (Hole - 1)) loop
            List (Hole) := List (Hole - 1);
            Hole := Hole - 1;
         end loop;
         List (Hole) := Moved;
      end loop;
   end Sort;

   procedure Show (X : Date) is
   begin
      Put_Line (Day'Image (X.D) & " " & Month'Image (X.M) & Integer'Image (X.Y));
   end Show;

   List : Dates;

   procedure Set (Index : Integer; D : Day; M : Month; Y : Integer) is
   begin
      List (Index).D := D;
      List (Index).M := M;
      List (Index).Y := Y;
   end Set;

begin
   Set (1, 24, Nov, 2026);
   Set (2, 1, Jan, 2000);
   Set (3, 31, Dec, 1999);
   Set (4, 24, Nov, 2025);
   List (5) := (29, Feb, 2024);
   List (6) := Date'(28, Feb, 2024);
   List (7) := List (1);
   List (7).D := 23;
   Sort (List);
   for I in List'Range loop
      Show (List (I));
   end loop;
   Put_Line (Boolean'Image (List (1) = Date'(31, Dec, 1999)));
   Put_Line (Boolean'Image (List (1) = List (2)));
end Insertion_Sort;
