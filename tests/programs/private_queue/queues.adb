package body Queues is
   Nobody : constant Item := (0, 0);

   function Job (Number, Weight : Natural) return Item is
   begin
      return Item'(Number, Weight);
   end Job;

   function Number (I : Item) return Natural is
   begin
      return I.Number;
   end Number;

   procedure Reset (Q : out Queue) is
   begin
      Q.First := 0;
      Q.Count := 0;
      Q.Waits := (others => Nobody);
   end Reset;

   -- heavy ones wait behind light ones
   procedure Enter (Q : in out Queue; I : Item) is
      At_Place : Place := (Q.First + Q.Count) mod 7;
      Before : Place;
   begin
      Q.Count := Q.Count + 1;
      for N in 2 .. Q.Count loop
         Before := (At_Place + 6) mod 7;
         exit when Q.Waits (Before).Weight <= I.Weight;
         Q.Waits (At_Place) := Q.Waits (Before);
         At_Place := Before;
      end loop;
      Q.Waits (At_Place) := I;
   end Enter;

   procedure Leave (Q : in out Queue; I : out Item) is
   begin
      I := Q.Waits (Q.First);
      Q.Waits (Q.First) := Nobody;
      Q.First := (Q.First + 1) mod 7;
      Q.Count := Q.Count - 1;
   end Leave;

   function Waiting (Q : Queue) return Natural is
   begin
      return Q.Count;
   end Waiting;
end Queues;
