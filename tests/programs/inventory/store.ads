with Goods; use Goods;
package Store is
   procedure Receive (What : Item; Count : Amount);
   procedure Deliver (What : Order; How : out Answer; Bill : out Amount);
   function On_Shelf (What : Item) return Amount;
end Store;
