with X;
package Y is
   A : Integer := X.Next;
   procedure Go;
end Y;
