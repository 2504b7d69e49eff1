with Ada.Text_IO;
with Ada.Real_Time; use Ada.Real_Time;
package body Ceilings is
   protected body Steps is
      procedure Long_Work (By : Integer; Sum : out Integer) is
         Seen : Integer := Count;
      begin
         for I in 1 .. 50 loop
            Count := Count + By;
         end loop;
         Sum := Count - Seen;
      end Long_Work;

      function Entered return Integer is
      begin
         return Count;
      end Entered;
   end Steps;

   task body Low is
      Sum : Integer;
   begin
      delay until Start + Milliseconds (50);
      Steps.Long_Work (1, Sum);
      Ada.Text_IO.Put_Line ("low" & Integer'Image (Sum));
   end Low;

   task body High is
      Sum : Integer;
   begin
      delay until Start + Milliseconds (150);
      Steps.Long_Work (2, Sum);
      Ada.Text_IO.Put_Line ("high" & Integer'Image (Sum) & " of" & Integer'Image (Steps.Entered));
   end High;
end Ceilings;
