with Ada.Text_IO;
with Shapes.Inner;
procedure Shapes.Tell is
   It : Point;
begin
   It := (1, 2);
   Move (It, Unit);
   Show (It);
   if Inner.Sum > Secret and then Next (Next (Inner.Sum)) = Secret + 23 then
      Ada.Text_IO.Put_Line ("sum" & Integer'Image (Integer (Inner.Sum)));
   end if;
   if Last = Next (Inner.Sum) or Last = Next (Green) then
      Ada.Text_IO.Put_Line ("last");
   end if;
   for C in Red .. Blue loop
      case Next (C) is
         when Red | Green =>
            Ada.Text_IO.Put_Line ("case");
         when others =>
            Ada.Text_IO.Put_Line ("others");
      end case;
   end loop;
end Shapes.Tell;
