with Ada.Text_IO;
procedure Subunits is
   Size : constant := 6;
   type Numbers is array (1 .. Size) of Integer;
   Data  : Numbers := (5, 3, 9, 1, 7, 2);
   Calls : Natural := 0;

   procedure Show is separate;
   function Sum return Integer is separate;
   procedure Reverse_All is separate;

   procedure Twice;
   procedure Twice is
   begin
      Reverse_All;
      Reverse_All;
   end Twice;
begin
   Show;
   Reverse_All;
   Show;
   Twice;
   Show;
   Ada.Text_IO.Put_Line (Integer'Image (Sum) & Natural'Image (Calls));
end Subunits;
