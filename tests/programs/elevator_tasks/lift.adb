with Ada.Text_IO;
with Ada.Real_Time; use Ada.Real_Time;
package body Lift is
   protected body Buttons is
      procedure Press (At_Floor : Floor) is
      begin
         Pressed (At_Floor) := True;
         Is_Called := True;
      end Press;

      procedure Reached (At_Floor : Floor; Stops : out Boolean) is
      begin
         Stops := Pressed (At_Floor);
         Pressed (At_Floor) := False;
         Is_Called := False;
         for F in Floor loop
            if Pressed (F) then
               Is_Called := True;
            end if;
         end loop;
      end Reached;

      entry Wait_For_Call when Is_Called is
      begin
         null;
      end Wait_For_Call;

      function Has_Above (At_Floor : Floor) return Boolean is
      begin
         for F in Floor loop
            if F > At_Floor and Pressed (F) then
               return True;
            end if;
         end loop;
         return False;
      end Has_Above;

      function Has_Any return Boolean is
      begin
         return Is_Called;
      end Has_Any;
   end Buttons;

   task body Cabin is
      Now      : Floor := 0;
      Goes_Up  : Boolean := True;
      Stops    : Boolean;
      Next     : Time := Start + Milliseconds (100);
      Arrivals : Natural := 0;
   begin
      while Arrivals < 6 loop
         Buttons.Wait_For_Call;
         delay until Next;
         Buttons.Reached (Now, Stops);
         if Stops then
            Ada.Text_IO.Put_Line ("stops at" & Floor'Image (Now));
            Arrivals := Arrivals + 1;
         end if;
         if Buttons.Has_Any then
            if Goes_Up and not Buttons.Has_Above (Now) then
               Goes_Up := False;
            elsif Now = 0 then
               Goes_Up := True;
            end if;
            if Goes_Up then
               Now := Now + 1;
            else
               Now := Now - 1;
            end if;
         end if;
         Next := Next + Milliseconds (20);
      end loop;
      Ada.Text_IO.Put_Line ("rests at" & Floor'Image (Now));
   end Cabin;

   task body People is
   begin
      delay until Start + Milliseconds (50);
      Buttons.Press (3);
      Buttons.Press (1);
      delay until Start + Milliseconds (150);
      Buttons.Press (5);
      Buttons.Press (0);
      delay until Start + Milliseconds (250);
      Buttons.Press (4);
      Buttons.Press (2);
   end People;
end Lift;
