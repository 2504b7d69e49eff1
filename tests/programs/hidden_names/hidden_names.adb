with P, Q, Ada.Text_IO;
use P, Q, Ada.Text_IO;
procedure Hidden_Names is
   procedure Inner is
      X : Integer := 10;
      procedure More is
         Z : Integer := X;
         F : Integer := P.F (X);
      begin
         Z := Z + Hidden_Names.Inner.X + Q.Z;
         Put_Line (Integer'Image (Z) & Integer'Image (F));
      end More;
   begin
      More;
      Put_Line (Integer'Image (F (X)) & Integer'Image (F (X = 10)) & Integer'Image (Z));
   end Inner;
   L : Integer := 5;
begin
   Inner;
   Put_Line (Integer'Image (L) & E'Image (P.L) & E'Image (N));
   declare
      N : Integer := L;
      L : constant Integer := N + 1;
   begin
      Put_Line (Integer'Image (L) & Integer'Image (N));
   end;
   for X in 1 .. 2 loop
      for Y in X .. 2 loop
         declare
            X : Integer := Y * 10;
         begin
            Put (Integer'Image (X));
         end;
      end loop;
   end loop;
   New_Line;
end Hidden_Names;
