package Sets is
   subtype Member is Integer range 0 .. 15;
   procedure Start;
   procedure Unite (A, B : Member);
   function Root (A : Member) return Member;
   function Together (A, B : Member) return Boolean;
   function How_Many return Positive;
private
   type Members is array (Member) of Member;
   Parent : Members;
   Count  : Natural := 0;
end Sets;
