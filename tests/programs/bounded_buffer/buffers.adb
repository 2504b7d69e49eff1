with Ada.Text_IO;
with Ada.Real_Time; use Ada.Real_Time;
package body Buffers is
   Start : Time := Clock;

   protected body Buffer is
      procedure Put (Item : Integer; Done : out Boolean) is
      begin
         Done := Used < Size;
         if Used < Size then
            Kept ((First + Used) mod Size) := Item;
            Used := Used + 1;
            Has_Item := True;
         end if;
      end Put;

      entry Wait_For_Item when Has_Item is
      begin
         null;
      end Wait_For_Item;

      procedure Take (Item : out Integer) is
      begin
         Item := Kept (First);
         First := (First + 1) mod Size;
         Used := Used - 1;
         Has_Item := Used > 0;
      end Take;

      function Count return Natural is
      begin
         return Used;
      end Count;
   end Buffer;

   --  It puts faster than the consumer takes, and tries again where there is no room.
   task body Producer is
      Next : Time := Start + Milliseconds (50);
      Item : Integer := 1;
      Done : Boolean;
   begin
      while Item <= Last loop
         delay until Next;
         Buffer.Put (Item * Item, Done);
         if Done then
            Item := Item + 1;
         end if;
         Next := Next + Milliseconds (10);
      end loop;
   end Producer;

   task body Consumer is
      Next : Time := Start + Milliseconds (85);
      Item : Integer;
   begin
      for I in 1 .. Last loop
         delay until Next;
         Buffer.Wait_For_Item;
         Ada.Text_IO.Put (Integer'Image (Buffer.Count) & " held,");
         Buffer.Take (Item);
         Ada.Text_IO.Put_Line (" took" & Integer'Image (Item));
         Next := Next + Milliseconds (20);
      end loop;
      Ada.Text_IO.Put_Line ("all taken");
   end Consumer;
end Buffers;
