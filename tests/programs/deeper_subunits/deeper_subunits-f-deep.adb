with Ada.Text_IO; use Ada.Text_IO;
separate (Deeper_Subunits.F)
procedure Deep (K : Integer; R : out Integer) is
begin
   package_like := package_like + K;
   R := K * N;
   Put (Integer'Image (R));
   S (K, R);
end Deep;
