package Journal is
   pragma Elaborate_Body;
   procedure Note (Step : Integer);
   function Notes return Natural;
end Journal;
