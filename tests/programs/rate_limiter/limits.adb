with Ada.Text_IO;
with Ada.Real_Time; use Ada.Real_Time;
package body Limits is
   protected body Bucket is
      procedure Request (Is_Granted : out Boolean) is
      begin
         Is_Granted := Tokens > 0;
         if Tokens > 0 then
            Tokens := Tokens - 1;
         end if;
      end Request;

      procedure Add is
      begin
         if Tokens < Most then
            Tokens := Tokens + 1;
         end if;
      end Add;

      function Left return Natural is
      begin
         return Tokens;
      end Left;
   end Bucket;

   task body Filler is
      Next : Time := Start + Milliseconds (75);
   begin
      for I in 1 .. 8 loop
         delay until Next;
         Bucket.Add;
         Next := Next + Milliseconds (30);
      end loop;
   end Filler;

   task body Client is
      Next       : Time := Start + Milliseconds (60);
      Is_Granted : Boolean;
      Refused    : Natural := 0;
   begin
      for I in 1 .. 14 loop
         delay until Next;
         Bucket.Request (Is_Granted);
         if Is_Granted then
            Ada.Text_IO.Put_Line (Integer'Image (I) & " granted," & Natural'Image (Bucket.Left) & " left");
         else
            Refused := Refused + 1;
         end if;
         Next := Next + Milliseconds (10);
      end loop;
      Ada.Text_IO.Put_Line (Natural'Image (Refused) & " refused");
   end Client;
end Limits;
