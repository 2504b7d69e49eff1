package body Sets is
   function Empty return Set is
   begin
      return Set'(others => False);
   end Empty;

   function Has (S : Set; M : Member) return Boolean is
   begin
      return S (M);
   end Has;

   function Size (S : Set) return Natural is
      N : Natural := 0;
   begin
      for M in S'Range loop
         if S (M) then
            N := N + 1;
         end if;
      end loop;
      return N;
   end Size;

   procedure Add (S : in out Set; M : Member) is
   begin
      S (M) := True;
   end Add;

   procedure Remove (S : in out Set; M : Member) is
   begin
      S (M) := False;
   end Remove;

   function Union (A, B : Set) return Set is
      R : Set;
   begin
      for M in Member loop
         R (M) := A (M) or B (M);
      end loop;
      return R;
   end Union;

   function Common (A, B : Set) return Set is
      R : Set;
   begin
      for M in Member loop
         R (M) := A (M) and B (M);
      end loop;
      return R;
   end Common;

   function Is_Subset (A, B : Set) return Boolean is
   begin
      return Common (A, B) = A;
   end Is_Subset;
end Sets;
