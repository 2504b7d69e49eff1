with Ada.Text_IO;
procedure Turtles is
   type Turtle is record
      X     : Integer;
      Y     : Integer;
      Ahead : Integer;
      Aside : Integer;
   end record;

   procedure Step (Moved : in out Turtle) is
   begin
      Moved.X := Moved.X + Moved.Ahead;
      Moved.Y := Moved.Y + Moved.Aside;
   end Step;

   procedure Turn (Turned : in out Turtle) is
      Before : constant Integer := Turned.Ahead;
   begin
      Turned.Ahead := -Turned.Aside;
      Turned.Aside := Before;
   end Turn;

   function Distance (From, To : Turtle) return Integer is
   begin
      return abs (From.X - To.X) + abs (From.Y - To.Y);
   end Distance;

   One : Turtle;
   Two : Turtle;
   Sum : Integer := 0;
begin
   One.X := 0;
   One.Y := 0;
   One.Ahead := 1;
   One.Aside := 0;
   Two := One;
   for I in 1 .. 50_000 loop
      Step (One);
      if I mod 3 = 0 then
         Turn (One);
      end if;
      Step (Two);
      if I mod 5 = 0 then
         Turn (Two);
      end if;
      Sum := (Sum + Distance (One, Two)) mod 1_000_000;
   end loop;
   Ada.Text_IO.Put_Line (Integer'Image (Sum));
end Turtles;
