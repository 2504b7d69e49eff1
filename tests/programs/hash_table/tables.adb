package body Tables is
   Size : constant := 11;
   subtype Slot is Integer range 0 .. Size - 1;
   type Condition is (Free, Taken, Deleted);
   type Place is record
      Is_Now : Condition;
      K      : Key;
      Value  : Integer;
   end record;
   type Places is array (Slot) of Place;

   Table   : Places := (others => Place'(Free, 0, 0));
   Count   : Natural := 0;
   Looks   : Natural := 0;

   function Home (K : Key) return Slot is
   begin
      return (K * 7 + K / 11) mod Size;
   end Home;

   -- The slot of the key, or else where it may be put.
   procedure Search (K : Key; Where : out Slot; How : out State) is
      Here    : Slot := Home (K);
      Reused  : Boolean := False;
   begin
      Where := Here;
      How := Full;
      for Try in 1 .. Size loop
         Looks := Looks + 1;
         case Table (Here).Is_Now is
            when Free =>
               if not Reused then
                  Where := Here;
               end if;
               How := Absent;
               return;
            when Deleted =>
               if not Reused then
                  Where := Here;
                  Reused := True;
                  How := Absent;
               end if;
            when Taken =>
               if Table (Here).K = K then
                  Where := Here;
                  How := Found;
                  return;
               end if;
         end case;
         Here := (Here + 1) mod Size;
      end loop;
   end Search;

   procedure Put (K : Key; Value : Integer; How : out State) is
      Where : Slot;
   begin
      Search (K, Where, How);
      if How = Full then
         return;
      end if;
      if How = Absent then
         Count := Count + 1;
      end if;
      Table (Where) := (Taken, K, Value);
   end Put;

   procedure Get (K : Key; Value : out Integer; How : out State) is
      Where : Slot;
   begin
      Search (K, Where, How);
      Value := 0;
      if How = Found then
         Value := Table (Where).Value;
      end if;
   end Get;

   procedure Remove (K : Key; How : out State) is
      Where : Slot;
   begin
      Search (K, Where, How);
      if How = Found then
         Table (Where).Is_Now := Deleted;
         Count := Count - 1;
      end if;
   end Remove;

   function Used return Natural is
   begin
      return Count;
   end Used;

   function Probes return Natural is
   begin
      return Looks;
   end Probes;
end Tables;
