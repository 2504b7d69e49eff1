package body Ring is
   subtype Slot is Integer range 0 .. Size - 1;
   type Slots is array (Slot) of Reading;
   Kept  : Slots;
   First : Slot := 0;
   Used  : Natural := 0;

   procedure Put (R : Reading) is
   begin
      if Used = Size then
         First := (First + 1) mod Size;
         Used := Used - 1;
         Lost := Lost + 1;
      end if;
      Kept ((First + Used) mod Size) := R;
      Used := Used + 1;
   end Put;

   procedure Take (R : out Reading) is
   begin
      R := Kept (First);
      First := (First + 1) mod Size;
      Used := Used - 1;
   end Take;

   function Count return Natural is
   begin
      return Used;
   end Count;

   function Average return Reading is
      Sum : Integer := 0;
   begin
      if Used = 0 then
         return 0;
      end if;
      for I in 0 .. Used - 1 loop
         Sum := Sum + Integer (Kept ((First + I) mod Size));
      end loop;
      return Reading (Sum / Used);
   end Average;
end Ring;
