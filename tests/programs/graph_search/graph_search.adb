with Ada.Text_IO; use Ada.Text_IO;
procedure Graph_Search is
   type City is (Aachen, Bonn, Celle, Dresden, Essen, Fulda, Goslar, Hagen);
   type Flags is array (City) of Boolean;
   type Roads is array (City) of Flags;
   type Distances is array (City) of Integer;
   type Cities is array (1 .. 8) of City;

   None : constant Flags := (others => False);
   Road : Roads := (others => None);

   procedure Join (A, B : City) is
   begin
      Road (A) (B) := True;
      Road (B) (A) := True;
   end Join;

   procedure Breadth_First (From : City; Distance : out Distances) is
      Queue : Cities := (others => From);
      First : Positive := 1;
      Last  : Natural := 1;
      Here  : City;
   begin
      Distance := (others => -1);
      Distance (From) := 0;
      while First <= Last loop
         Here := Queue (First);
         First := First + 1;
         for Next in City loop
            if Road (Here) (Next) and then Distance (Next) < 0 then
               Distance (Next) := Distance (Here) + 1;
               Last := Last + 1;
               Queue (Last) := Next;
            end if;
         end loop;
      end loop;
   end Breadth_First;

   Seen : Flags := None;

   procedure Depth_First (Here : City) is
   begin
      Seen (Here) := True;
      Put (" " & City'Image (Here));
      for Next in City loop
         if Road (Here) (Next) and not Seen (Next) then
            Depth_First (Next);
         end if;
      end loop;
   end Depth_First;

   Distance : Distances;
   Groups   : Natural := 0;
begin
   Join (Aachen, Bonn);
   Join (Bonn, Essen);
   Join (Essen, Hagen);
   Join (Aachen, Hagen);
   Join (Hagen, Fulda);
   Join (Celle, Goslar);
   Breadth_First (Aachen, Distance);
   for C in City loop
      if Distance (C) < 0 then
         Put_Line (City'Image (C) & " can't be reached");
      else
         Put_Line (City'Image (C) & Integer'Image (Distance (C)));
      end if;
   end loop;
   for C in City loop
      if not Seen (C) then
         Groups := Groups + 1;
         Put (Natural'Image (Groups) & ":");
         Depth_First (C);
         New_Line;
      end if;
   end loop;
end Graph_Search;
