with Ada.Text_IO; use Ada.Text_IO;
procedure Shortest_Paths is
   Far : constant := 1_000_000;
   subtype Node is Integer range 1 .. 6;
   type Lengths is array (Node) of Natural;
   type Network is array (Node) of Lengths;
   type Nodes is array (Node) of Integer;
   type Marks is array (Node) of Boolean;

   Length : Network := (others => Lengths'(others => Far));

   procedure Edge (A, B : Node; L : Positive) is
   begin
      Length (A) (B) := L;
      Length (B) (A) := L;
   end Edge;

   procedure Dijkstra (From : Node; Best : out Lengths; Before : out Nodes) is
      Done : Marks := (others => False);
      Here : Node;
      Near : Natural;
   begin
      Best := (others => Far);
      Before := (others => 0);
      Best (From) := 0;
      for Round in Node loop
         Near := Far + 1;
         Here := From;
         for N in Node loop
            if not Done (N) and then Best (N) < Near then
               Here := N;
               Near := Best (N);
            end if;
         end loop;
         Done (Here) := True;
         for N in Node loop
            if Length (Here) (N) < Far and then Best (Here) + Length (Here) (N) < Best (N) then
               Best (N) := Best (Here) + Length (Here) (N);
               Before (N) := Here;
            end if;
         end loop;
      end loop;
   end Dijkstra;

   function All_Pairs return Network is
      D : Network := Length;
   begin
      for N in Node loop
         D (N) (N) := 0;
      end loop;
      for Via in Node loop
         for From in Node loop
            for To in Node loop
               if D (From) (Via) + D (Via) (To) < D (From) (To) then
                  D (From) (To) := D (From) (Via) + D (Via) (To);
               end if;
            end loop;
         end loop;
      end loop;
      return D;
   end All_Pairs;

   Best   : Lengths;
   Before : Nodes;
   Here   : Integer;
   Table  : Network;
   Same   : Boolean := True;
begin
   Edge (1, 2, 7);
   Edge (1, 3, 9);
   Edge (1, 6, 14);
   Edge (2, 3, 10);
   Edge (2, 4, 15);
   Edge (3, 4, 11);
   Edge (3, 6, 2);
   Edge (4, 5, 6);
   Edge (5, 6, 9);
   Dijkstra (1, Best, Before);
   for N in Node loop
      Put (Integer'Image (N) & " at" & Natural'Image (Best (N)) & ", from");
      Here := N;
      while Before (Here) /= 0 loop
         Here := Before (Here);
         Put (Integer'Image (Here));
      end loop;
      New_Line;
   end loop;
   Table := All_Pairs;
   for N in Node loop
      Dijkstra (N, Best, Before);
      Same := Same and Best = Table (N);
   end loop;
   Put_Line ("both agree: " & Boolean'Image (Same));
end Shortest_Paths;
