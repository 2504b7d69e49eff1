package body Sets is
   procedure Start is
   begin
      for M in Member loop
         Parent (M) := M;
      end loop;
      Count := Member'Last - Member'First + 1;
   end Start;

   function Root (A : Member) return Member is
      Top  : Member := A;
   begin
      while Parent (Top) /= Top loop
         Top := Parent (Top);
      end loop;
      return Top;
   end Root;

   procedure Shorten (A : Member; Top : Member) is
      Here : Member := A;
      Next : Member;
   begin
      while Here /= Top loop
         Next := Parent (Here);
         Parent (Here) := Top;
         Here := Next;
      end loop;
   end Shorten;

   procedure Unite (A, B : Member) is
      Root_A : constant Member := Root (A);
      Root_B : constant Member := Root (B);
   begin
      Shorten (A, Root_A);
      Shorten (B, Root_B);
      if Root_A /= Root_B then
         Parent (Root_B) := Root_A;
         Count := Count - 1;
      end if;
   end Unite;

   function Together (A, B : Member) return Boolean is
   begin
      return Root (A) = Root (B);
   end Together;

   function How_Many return Positive is
   begin
      return Count;
   end How_Many;
begin
   Start;
end Sets;
