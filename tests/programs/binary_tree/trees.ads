package Trees is
   procedure Insert (Key : Integer);
   function Contains (Key : Integer) return Boolean;
   function Height return Natural;
   function Size return Natural;
   procedure Show_In_Order;
   procedure Show_Shape;
end Trees;
