with Ada.Text_IO; use Ada.Text_IO;
procedure Calculator is
   type Kind is (Number, Plus, Minus, Times, Divide, Open, Close, Finish);
   type Token is record
      What  : Kind;
      Value : Integer;
   end record;
   type Tokens is array (1 .. 20) of Token;

   Input   : Tokens;
   Written : Natural := 0;
   Here    : Positive := 1;
   Errors  : Natural := 0;

   procedure Add (What : Kind; Value : Integer) is
   begin
      Written := Written + 1;
      Input (Written).What := What;
      Input (Written).Value := Value;
   end Add;

   procedure N (Value : Integer) is
   begin
      Add (Number, Value);
   end N;

   procedure Op (What : Kind) is
   begin
      Add (What, 0);
   end Op;

   procedure Start is
   begin
      Written := 0;
      Here := 1;
      Errors := 0;
   end Start;

   function Expression return Integer;

   function Primary return Integer is
      Result : Integer := 0;
   begin
      case Input (Here).What is
         when Number =>
            Result := Input (Here).Value;
            Here := Here + 1;
         when Minus =>
            Here := Here + 1;
            Result := -Primary;
         when Open =>
            Here := Here + 1;
            Result := Expression;
            if Input (Here).What = Close then
               Here := Here + 1;
            else
               Errors := Errors + 1;
            end if;
         when others =>
            Errors := Errors + 1;
      end case;
      return Result;
   end Primary;

   function Term return Integer is
      Result : Integer := Primary;
      Right  : Integer;
   begin
      while Input (Here).What in Times .. Divide loop
         if Input (Here).What = Times then
            Here := Here + 1;
            Result := Result * Primary;
         else
            Here := Here + 1;
            Right := Primary;
            if Right = 0 then
               Errors := Errors + 1;
            else
               Result := Result / Right;
            end if;
         end if;
      end loop;
      return Result;
   end Term;

   function Expression return Integer is
      Result : Integer := Term;
   begin
      loop
         if Input (Here).What = Plus then
            Here := Here + 1;
            Result := Result + Term;
         elsif Input (Here).What = Minus then
            Here := Here + 1;
            Result := Result - Term;
         else
            return Result;
         end if;
      end loop;
   end Expression;

   procedure Evaluate is
      Value : Integer;
   begin
      Op (Finish);
      Value := Expression;
      if Input (Here).What /= Finish then
         Errors := Errors + 1;
      end if;
      if Errors = 0 then
         Put_Line ("=" & Integer'Image (Value));
      else
         Put_Line ("errors" & Natural'Image (Errors) & " at token" & Positive'Image (Here));
      end if;
      Start;
   end Evaluate;

begin
   -- 2 + 3 * 4
   N (2); Op (Plus); N (3); Op (Times); N (4); Evaluate;
   -- (2 + 3) * -4
   Op (Open); N (2); Op (Plus); N (3); Op (Close); Op (Times); Op (Minus); N (4); Evaluate;
   -- 100 / 7 / 2 - 1
   N (100); Op (Divide); N (7); Op (Divide); N (2); Op (Minus); N (1); Evaluate;
   -- 1 / (2 - 2)
   N (1); Op (Divide); Op (Open); N (2); Op (Minus); N (2); Op (Close); Evaluate;
   -- (1 + 2
   Op (Open); N (1); Op (Plus); N (2); Evaluate;
   -- 1 2
   N (1); N (2); Evaluate;
   -- --5
   Op (Minus); Op (Minus); N (5); Evaluate;
end Calculator;
