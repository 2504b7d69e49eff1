package Ring is
   Size : constant := 4;
   type Reading is range -50 .. 150;
   procedure Put (R : Reading);
   procedure Take (R : out Reading);
   function Count return Natural;
   function Average return Reading;
   Lost : Natural := 0;
end Ring;
