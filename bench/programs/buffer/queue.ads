package Queue is
   Size : constant := 8;
   subtype Index is Integer range 0 .. Size - 1;
   type Words is array (Index) of Integer;

   --  The places that are free; who puts takes one first.
   protected Places with Priority => 20 is
      entry Take;
      procedure Give;
   private
      Free    : Natural := Size;
      Is_Free : Boolean := True;
   end Places;

   --  The words in the order in which they came.
   protected Buffer with Priority => 20 is
      procedure Put (Word : Integer);
      entry Wait;
      procedure Take (Word : out Integer);
   private
      Kept     : Words := (others => 0);
      First    : Index := 0;
      Used     : Natural := 0;
      Has_Word : Boolean := False;
   end Buffer;

   task Producer with Priority => 12;
   task Consumer with Priority => 11;
end Queue;
