package Events is
   type Kind is (Started, Measured, Alarm, Stopped);
   type Event is record
      Number : Natural;
      Of_Kind : Kind;
      Value : Integer;
   end record;
   Size : constant := 8;
   subtype Slot is Integer range 0 .. Size - 1;
   type Slots is array (Slot) of Event;

   --  The last events, the oldest of which is lost for a new one.
   protected Log with Priority => 30 is
      procedure Add (Of_Kind : Kind; Value : Integer);
      procedure Take (E : out Event; Is_There : out Boolean);
      function Lost return Natural;
   private
      Kept   : Slots;
      First  : Slot := 0;
      Used   : Natural := 0;
      Number : Natural := 1;
      Gone   : Natural := 0;
   end Log;

   task Sensor with Priority => 12;
   task Guard with Priority => 13;
   task Printer with Priority => 5;
end Events;
