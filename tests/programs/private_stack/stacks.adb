package body Stacks is
   function Is_Empty (S : Stack) return Boolean is
   begin
      return S.Top = 0;
   end Is_Empty;

   function Depth (S : Stack) return Natural is
   begin
      return S.Top;
   end Depth;

   procedure Clear (S : in out Stack) is
   begin
      S := (0, Values'(others => 0));
   end Clear;

   procedure Push (S : in out Stack; Value : Integer) is
   begin
      S.Top := S.Top + 1;
      S.Items (S.Top) := Value;
   end Push;

   procedure Pop (S : in out Stack; Value : out Integer) is
   begin
      Value := S.Items (S.Top);
      S.Items (S.Top) := 0;
      S.Top := S.Top - 1;
   end Pop;
end Stacks;
