with Ada.Real_Time;
package Lift is
   Start : Ada.Real_Time.Time := Ada.Real_Time.Clock;
   type Floor is range 0 .. 5;
   type Calls is array (Floor) of Boolean;

   protected Buttons with Priority => 24 is
      procedure Press (At_Floor : Floor);
      procedure Reached (At_Floor : Floor; Stops : out Boolean);
      entry Wait_For_Call;
      function Has_Above (At_Floor : Floor) return Boolean;
      function Has_Any return Boolean;
   private
      Pressed   : Calls := (others => False);
      Is_Called : Boolean := False;
   end Buttons;

   task Cabin with Priority => 12;
   task People with Priority => 14;
end Lift;
