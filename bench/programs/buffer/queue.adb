with Ada.Text_IO;
package body Queue is
   Last : constant := 10_000;

   protected body Places is
      entry Take when Is_Free is
      begin
         Free := Free - 1;
         Is_Free := Free > 0;
      end Take;

      procedure Give is
      begin
         Free := Free + 1;
         Is_Free := True;
      end Give;
   end Places;

   protected body Buffer is
      procedure Put (Word : Integer) is
      begin
         Kept ((First + Used) mod Size) := Word;
         Used := Used + 1;
         Has_Word := True;
      end Put;

      entry Wait when Has_Word is
      begin
         null;
      end Wait;

      procedure Take (Word : out Integer) is
      begin
         Word := Kept (First);
         First := (First + 1) mod Size;
         Used := Used - 1;
         Has_Word := Used > 0;
      end Take;
   end Buffer;

   task body Producer is
   begin
      for I in 1 .. Last loop
         Places.Take;
         Buffer.Put (I mod 100);
      end loop;
   end Producer;

   task body Consumer is
      Word : Integer;
      Sum  : Integer := 0;
   begin
      for I in 1 .. Last loop
         Buffer.Wait;
         Buffer.Take (Word);
         Places.Give;
         Sum := (Sum + Word * I) mod 1_000_000;
      end loop;
      Ada.Text_IO.Put_Line (Integer'Image (Sum));
   end Consumer;
end Queue;
