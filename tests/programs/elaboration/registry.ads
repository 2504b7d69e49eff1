package Registry is
   function Add (Value : Integer) return Positive;
   function Total return Integer;
end Registry;
