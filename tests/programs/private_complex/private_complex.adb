with Ada.Text_IO; use Ada.Text_IO;
with Gauss.Powers;

procedure Private_Complex is
   I : constant Gauss.Number := Gauss.Of_Parts (0, 1);
   Z : Gauss.Number := Gauss.Of_Parts (2, 1);

   procedure Show (N : Gauss.Number) is
      use Gauss;
   begin
      Put_Line (Integer'Image (Re (N)) & " +" & Integer'Image (Im (N)) & " i");
   end Show;

   use type Gauss.Number;
begin
   for N in 0 .. 6 loop
      Show (Gauss.Powers.Power (Z, N));
   end loop;
   Show (Gauss.Product (I, I));
   if Gauss.Powers.Power (I, 4) = Gauss.Of_Parts (1, 0) then
      Put_Line ("four quarters");
   end if;
   Z := Gauss.Sum (Gauss.Product (Z, I), Gauss.Number'(Z));
   Show (Z);
   Put_Line ("norm" & Integer'Image (Gauss.Powers.Norm (Z)));
end Private_Complex;
