with Ada.Text_IO; use Ada.Text_IO;
with Tables;
procedure Early_Call is
   function Later (Depth : Natural) return Natural;

   procedure Safe is
   begin
      Put_Line ("lookup" & Integer'Image (Tables.Lookup (12)));
   end Safe;

   function Now (Depth : Natural) return Natural is
   begin
      if Depth = 0 then
         return 0;
      end if;
      return Later (Depth - 1) + 1;
   end Now;

   procedure Nested is
      Before : constant Natural := Now (0);
   begin
      Put_Line ("before" & Natural'Image (Before));
   end Nested;

   function Later (Depth : Natural) return Natural is
   begin
      if Depth = 0 then
         return 0;
      end if;
      return Now (Depth - 1) + 1;
   end Later;
begin
   Safe;
   Nested;
   Put_Line ("after" & Natural'Image (Now (9)));
   declare
      function Missing return Integer;
      Value : constant Integer := Missing;
      function Missing return Integer is
      begin
         return 1;
      end Missing;
   begin
      Put_Line ("not reached" & Integer'Image (Value));
   end;
end Early_Call;
