with Ada.Text_IO; use Ada.Text_IO;
procedure Evaluation_Order is
   type Row is array (1 .. 3) of Integer;
   N : Integer := 0;

   function Next return Integer is
   begin
      N := N + 1;
      Put ("next" & Integer'Image (N) & ", ");
      return N;
   end Next;

   function One return Integer is
   begin
      Put ("one, ");
      return 1;
   end One;

   --  Each object has a value of its own, and so has each component of others.
   X, Y : Integer := Next;
   V : Row := (others => Next);

   procedure Show (A, B : Integer) is
   begin
      Put_Line ("shown" & Integer'Image (A) & Integer'Image (B));
   end Show;
begin
   Put_Line (Integer'Image (X) & Integer'Image (Y) & Integer'Image (V (1)) & Integer'Image (V (3)));
   --  The source comes before the index of the target.
   N := 0;
   V (Next) := One;
   Put_Line (Integer'Image (V (1)));
   --  Operands, arguments and the parts of a test come from left to right.
   Put_Line (Integer'Image (One + Next * Next));
   Show (Next, One);
   Put_Line (Boolean'Image (One in Next .. Next));
   --  All that is put out is evaluated before any of it is put out.
   Put_Line ("a" & Integer'Image (Next) & "b" & Integer'Image (One));
   for I in One .. 2 loop
      Put_Line (Integer'Image (I));
   end loop;
end Evaluation_Order;
