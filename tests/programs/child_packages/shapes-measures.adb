package body Shapes.Measures is
   function Hole (S : Shape) return Natural is
   begin
      if S.Is_A /= Frame or else S.Width <= 2 * Border or else S.Height <= 2 * Border then
         return 0;
      end if;
      return (S.Width - 2 * Border) * (S.Height - 2 * Border);
   end Hole;

   function Surface (S : Shape) return Natural is
   begin
      return S.Width * S.Height - Hole (S);
   end Surface;
end Shapes.Measures;
