with Ada.Text_IO;
package body Lists is
   procedure Clear (L : out List) is
   begin
      L.Used := 0;
      L.Items := (others => 0);
   end Clear;

   procedure Append (L : in out List; Item : Integer) is
   begin
      L.Used := L.Used + 1;
      L.Items (L.Used) := Item;
   end Append;

   function Is_Full (L : List) return Boolean is
   begin
      return L.Used = Longest;
   end Is_Full;

   procedure Show (L : List) is
   begin
      Ada.Text_IO.Put ("(");
      for I in 1 .. L.Used loop
         Ada.Text_IO.Put (Integer'Image (L.Items (I)));
      end loop;
      Ada.Text_IO.Put_Line (" )");
   end Show;
end Lists;
