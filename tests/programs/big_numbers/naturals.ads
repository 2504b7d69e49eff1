package Naturals is
   Most_Digits : constant := 60;
   subtype Place is Integer range 1 .. Most_Digits;
   subtype Digit is Integer range 0 .. 9;
   type Digit_List is array (Place) of Digit;
   -- The least digit stands first.
   type Big is record
      Length : Integer range 1 .. Most_Digits;
      Digit_At : Digit_List;
   end record;

   function From (N : Natural) return Big;
   function Sum (A, B : Big) return Big;
   function Product (A, B : Big) return Big;
   function Digit_Sum (A : Big) return Natural;
   procedure Print (A : Big);
end Naturals;
