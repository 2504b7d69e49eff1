with Ada.Text_IO; use Ada.Text_IO;
procedure Overflow is
   type Percent is range 0 .. 100;
   Filled : Percent := 60;

   procedure Pour (Amount : Percent) is
   begin
      Filled := Filled + Amount;
      Put_Line ("filled to" & Percent'Image (Filled));
   end Pour;
begin
   Pour (15);
   Pour (25);
   Pour (0);
   Pour (1);
   Put_Line ("not reached");
end Overflow;
