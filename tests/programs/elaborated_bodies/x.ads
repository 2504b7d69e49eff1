package X is
   pragma Elaborate_Body;
   N : Integer := 1;
   function Next return Integer;
end X;
