package body Stack.Arithmetic is
   procedure Apply (What : Operation) is
      Left, Right : Integer;
   begin
      Pop (Right);
      if What = Double then
         Push (Right);
         Push (Right);
         return;
      end if;
      Pop (Left);
      case What is
         when Plus     => Push (Left + Right);
         when Minus    => Push (Left - Right);
         when Times    => Push (Left * Right);
         when Over     => Push (Left / Right);
         when Exchange =>
            Push (Right);
            Push (Left);
         when Double   => null;
      end case;
   end Apply;
end Stack.Arithmetic;
