with Aa.B; use Aa;
with Ada.Text_IO; use Ada.Text_IO;
procedure Private_Children is
   procedure Show (N : T) is
   begin
      Put_Line (T'Image (N));
   end Show;
begin
   Show (Get);
   B.Twice;
   Show (Get);
   Show (B.Seen);
   V := B.Seen + V;
   Show (Aa.V);
end Private_Children;
