separate (Subunits.Sum)
procedure Add (Item : Integer) is
begin
   Calls := Calls + 1;
   Total := Total + Item;
end Add;
