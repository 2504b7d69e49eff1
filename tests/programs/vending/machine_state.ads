package Machine_State is
   type State is (Idle, Paying, Serving, Broken);
   type Coin is (Five, Ten, Twenty, Fifty, Euro);
   type Drink is (Water, Tea, Coffee, Cocoa);
   type Cents is range 0 .. 1_000;

   procedure Insert (C : Coin);
   procedure Choose (D : Drink);
   procedure Cancel;
   function Now return State;
   function Paid return Cents;
end Machine_State;
