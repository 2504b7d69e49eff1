package Stack.Arithmetic is
   type Operation is (Plus, Minus, Times, Over, Double, Exchange);
   procedure Apply (What : Operation);
end Stack.Arithmetic;
