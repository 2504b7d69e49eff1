package Tables is
   function Lookup (Key : Integer) return Integer;
end Tables;
