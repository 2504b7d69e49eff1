with Ada.Text_IO;
package body Stages is
   protected body First is
      procedure Give (N : Integer; Done : out Boolean) is
      begin
         Done := not Is_Full;
         if not Is_Full then
            Value := N;
            Is_Full := True;
         end if;
      end Give;

      entry Wait when Is_Full is
      begin
         null;
      end Wait;

      procedure Take (N : out Integer) is
      begin
         N := Value;
         Is_Full := False;
      end Take;
   end First;

   protected body Second is
      procedure Give (N : Integer; Done : out Boolean) is
      begin
         Done := not Is_Full;
         if not Is_Full then
            Value := N;
            Is_Full := True;
         end if;
      end Give;

      entry Wait when Is_Full is
      begin
         null;
      end Wait;

      procedure Take (N : out Integer) is
      begin
         N := Value;
         Is_Full := False;
      end Take;
   end Second;

   task body Odd_Numbers is
      N    : Integer := 1;
      Done : Boolean;
   begin
      while N < 16 loop
         First.Give (N, Done);
         if Done then
            N := N + 2;
         end if;
      end loop;
      loop
         First.Give (Stop, Done);
         exit when Done;
      end loop;
   end Odd_Numbers;

   task body Squares is
      N    : Integer;
      Done : Boolean;
   begin
      loop
         First.Wait;
         First.Take (N);
         if N /= Stop then
            N := N * N;
         end if;
         loop
            Second.Give (N, Done);
            exit when Done;
         end loop;
         exit when N = Stop;
      end loop;
   end Squares;

   task body Sums is
      N   : Integer;
      Sum : Integer := 0;
   begin
      loop
         Second.Wait;
         Second.Take (N);
         exit when N = Stop;
         Sum := Sum + N;
         Ada.Text_IO.Put_Line (Integer'Image (N) & " makes" & Integer'Image (Sum));
      end loop;
      Ada.Text_IO.Put_Line ("end of the row");
   end Sums;
end Stages;
