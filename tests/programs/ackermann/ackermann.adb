with Ada.Text_IO; use Ada.Text_IO;
procedure Ackermann is
   Calls, Depth, Deepest : Natural := 0;

   function A (M, N : Natural) return Natural is
      Result : Natural;
   begin
      Calls := Calls + 1;
      Depth := Depth + 1;
      if Depth > Deepest then
         Deepest := Depth;
      end if;
      if M = 0 then
         Result := N + 1;
      elsif N = 0 then
         Result := A (M - 1, 1);
      else
         Result := A (M - 1, A (M, N - 1));
      end if;
      Depth := Depth - 1;
      return Result;
   end A;

   function Even (N : Natural) return Boolean;
   function Odd (N : Natural) return Boolean;

   function Even (N : Natural) return Boolean is
   begin
      return N = 0 or else Odd (N - 1);
   end Even;

   function Odd (N : Natural) return Boolean is
   begin
      return N /= 0 and then Even (N - 1);
   end Odd;
begin
   for M in 0 .. 3 loop
      for N in 0 .. 4 loop
         Put (Natural'Image (A (M, N)));
      end loop;
      New_Line;
   end loop;
   Put_Line ("calls" & Natural'Image (Calls) & ", depth" & Natural'Image (Deepest));
   Put_Line (Boolean'Image (Even (101)) & " " & Boolean'Image (Odd (101)));
end Ackermann;
