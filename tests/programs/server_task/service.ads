--  A server task, to which clients give a number and wait for its square.
package Service is
   protected Request with Priority => 25 is
      procedure Give (N : Integer);
      entry Wait;
      function Number return Integer;
   private
      Is_Given : Boolean := False;
      Value    : Integer := 0;
   end Request;

   protected Answer with Priority => 25 is
      procedure Give (N : Integer);
      entry Wait;
      function Number return Integer;
   private
      Is_Given : Boolean := False;
      Value    : Integer := 0;
   end Answer;

   task Server with Priority => 18;

   function Square (N : Integer) return Integer;
end Service;
