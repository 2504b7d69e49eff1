--  One item at a time goes from a producer to a consumer: each waits for the other.
package Channel is
   protected Full is
      entry Wait;
      procedure Set (Item : Integer);
      function Item return Integer;
   private
      Is_Set : Boolean := False;
      Value  : Integer := 0;
   end Full;

   protected Free is
      entry Wait;
      procedure Set;
   private
      Is_Set : Boolean := True;
   end Free;
end Channel;
