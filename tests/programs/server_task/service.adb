package body Service is
   protected body Request is
      procedure Give (N : Integer) is
      begin
         Value := N;
         Is_Given := True;
      end Give;

      entry Wait when Is_Given is
      begin
         Is_Given := False;
      end Wait;

      function Number return Integer is
      begin
         return Value;
      end Number;
   end Request;

   protected body Answer is
      procedure Give (N : Integer) is
      begin
         Value := N;
         Is_Given := True;
      end Give;

      entry Wait when Is_Given is
      begin
         Is_Given := False;
      end Wait;

      function Number return Integer is
      begin
         return Value;
      end Number;
   end Answer;

   task body Server is
   begin
      loop
         Request.Wait;
         Answer.Give (Request.Number * Request.Number);
      end loop;
   end Server;

   function Square (N : Integer) return Integer is
   begin
      Request.Give (N);
      Answer.Wait;
      return Answer.Number;
   end Square;
end Service;
