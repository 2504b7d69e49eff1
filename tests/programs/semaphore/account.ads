with Ada.Real_Time;
package Account is
   Start : Ada.Real_Time.Time := Ada.Real_Time.Clock;

   --  Who holds it may change the balance, even over a delay.
   protected Hold is
      entry Seize;
      procedure Release;
   private
      Is_Free : Boolean := True;
   end Hold;

   procedure Add (Amount : Integer; Who : Integer);
   function Balance return Integer;

   task Saver with Priority => 10;
   task Spender with Priority => 11;
end Account;
