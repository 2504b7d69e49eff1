with Ada.Text_IO; use Ada.Text_IO;
procedure Elevator is
   subtype Floor is Integer range -1 .. 6;
   type Direction is (Down, Stopped, Up);
   type Requests is array (Floor) of Boolean;

   Wanted  : Requests := (others => False);
   Here    : Floor := 0;
   Heading : Direction := Stopped;
   Moves   : Natural := 0;

   function Any_Between (Low, High : Integer) return Boolean is
   begin
      for F in Low .. High loop
         if Wanted (F) then
            return True;
         end if;
      end loop;
      return False;
   end Any_Between;

   procedure Decide is
      Above : constant Boolean := Any_Between (Here + 1, Floor'Last);
      Below : constant Boolean := Any_Between (Floor'First, Here - 1);
   begin
      case Heading is
         when Up =>
            if not Above then
               if Below then
                  Heading := Down;
               else
                  Heading := Stopped;
               end if;
            end if;
         when Down =>
            if not Below then
               if Above then
                  Heading := Up;
               else
                  Heading := Stopped;
               end if;
            end if;
         when Stopped =>
            if Above then
               Heading := Up;
            elsif Below then
               Heading := Down;
            end if;
      end case;
   end Decide;

   procedure Step is
   begin
      if Wanted (Here) then
         Put_Line ("doors open at" & Floor'Image (Here));
         Wanted (Here) := False;
      end if;
      Decide;
      if Heading /= Stopped then
         Here := Here + Direction'Pos (Heading) - 1;
         Moves := Moves + 1;
      end if;
   end Step;

   procedure Run is
   begin
      loop
         Step;
         exit when Heading = Stopped and then not Any_Between (Floor'First, Floor'Last);
      end loop;
      Put_Line (Direction'Image (Heading) & " at" & Floor'Image (Here) & " after" & Natural'Image (Moves));
   end Run;
begin
   Wanted (3) := True;
   Wanted (5) := True;
   Step;
   Step;
   Wanted (1) := True;
   Wanted (4) := True;
   Run;
   Wanted (-1) := True;
   Run;
   Run;
   Wanted := (True, False, False, False, False, False, False, True);
   Run;
end Elevator;
