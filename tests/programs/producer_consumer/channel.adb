package body Channel is
   protected body Full is
      entry Wait when Is_Set is
      begin
         Is_Set := False;
      end Wait;

      procedure Set (Item : Integer) is
      begin
         Value := Item;
         Is_Set := True;
      end Set;

      function Item return Integer is
      begin
         return Value;
      end Item;
   end Full;

   protected body Free is
      entry Wait when Is_Set is
      begin
         Is_Set := False;
      end Wait;

      procedure Set is
      begin
         Is_Set := True;
      end Set;
   end Free;
end Channel;
