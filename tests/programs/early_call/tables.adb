package body Tables is
   function Lookup (Key : Integer) return Integer is
   begin
      return Key * Key;
   end Lookup;
end Tables;
