separate (Shapes)
procedure Move (It : in out Point; By : Distance) is
   procedure Deep is separate;
begin
   Deep;
end Move;
