package Sets is
   subtype Member is Integer range 0 .. 31;
   type Set is private;

   function Empty return Set;
   function Has (S : Set; M : Member) return Boolean;
   function Size (S : Set) return Natural;
   procedure Add (S : in out Set; M : Member);
   procedure Remove (S : in out Set; M : Member);
   function Union (A, B : Set) return Set;
   function Common (A, B : Set) return Set;
   function Is_Subset (A, B : Set) return Boolean;
private
   type Set is array (Member) of Boolean;
end Sets;
