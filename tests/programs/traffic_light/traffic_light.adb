with Ada.Text_IO; use Ada.Text_IO;
procedure Traffic_Light is
   type Colour is (Red, Red_And_Amber, Green, Amber, Blinking);
   subtype Moving is Colour range Green .. Amber;
   type Event is (Tick, Button, Fault, Repair);
   type Seconds is range 0 .. 60;
   type Durations is array (Colour) of Seconds;

   Lasts : constant Durations := (20, 2, 25, 3, 0);

   State   : Colour := Red;
   Left    : Seconds := Lasts (Red);
   Waiting : Boolean := False;

   procedure Enter (C : Colour) is
   begin
      State := C;
      Left := Lasts (C);
   end Enter;

   procedure Next is
   begin
      case State is
         when Red           => Enter (Red_And_Amber);
         when Red_And_Amber => Enter (Green);
         when Green         => Enter (Amber);
         when Amber         =>
            Waiting := False;
            Enter (Red);
         when Blinking      => null;
      end case;
   end Next;

   procedure Handle (E : Event) is
   begin
      case E is
         when Tick =>
            if State /= Blinking then
               Left := Left - 1;
               if Left = 0 then
                  Next;
               end if;
            end if;
         when Button =>
            if State = Green and then not Waiting then
               Waiting := True;
               if Left > 5 then
                  Left := 5;
               end if;
            end if;
         when Fault =>
            Enter (Blinking);
         when Repair =>
            if State = Blinking then
               Enter (Red);
            end if;
      end case;
   end Handle;

   Clock : Natural := 0;

   procedure Run (Ticks : Positive) is
      Before : Colour;
   begin
      for T in 1 .. Ticks loop
         Before := State;
         Handle (Tick);
         Clock := Clock + 1;
         if State /= Before then
            Put_Line (Natural'Image (Clock) & " s: " & Colour'Image (State) & " for" & Seconds'Image (Left));
         end if;
      end loop;
   end Run;
begin
   Run (30);
   Put_Line ("moving: " & Boolean'Image (State in Moving));
   Handle (Button);
   Handle (Button);
   Run (10);
   Handle (Fault);
   Put_Line (Colour'Image (State));
   Run (100);
   Handle (Repair);
   Run (21);
end Traffic_Light;
