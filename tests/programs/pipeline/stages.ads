package Stages is
   --  Between two stages one number waits; whoever gives one waits until the one before it is taken.
   protected First is
      procedure Give (N : Integer; Done : out Boolean);
      entry Wait;
      procedure Take (N : out Integer);
   private
      Is_Full : Boolean := False;
      Value   : Integer := 0;
   end First;

   protected Second is
      procedure Give (N : Integer; Done : out Boolean);
      entry Wait;
      procedure Take (N : out Integer);
   private
      Is_Full : Boolean := False;
      Value   : Integer := 0;
   end Second;

   Stop : constant := -1;
   task Odd_Numbers with Priority => 4;
   task Squares with Priority => 6;
   task Sums with Priority => 8;
end Stages;
