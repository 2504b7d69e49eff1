with Journal; pragma Elaborate (Journal);
package body Registry is
   Sum   : Integer := 0;
   Count : Natural := 0;

   function Add (Value : Integer) return Positive is
   begin
      Sum := Sum + Value;
      Count := Count + 1;
      Journal.Note (Value);
      return Count;
   end Add;

   function Total return Integer is
   begin
      return Sum;
   end Total;
begin
   Journal.Note (100);
end Registry;
