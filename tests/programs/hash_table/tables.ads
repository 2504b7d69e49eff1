package Tables is
   subtype Key is Integer range 0 .. 9_999;
   type State is (Found, Absent, Full);
   procedure Put (K : Key; Value : Integer; How : out State);
   procedure Get (K : Key; Value : out Integer; How : out State);
   procedure Remove (K : Key; How : out State);
   function Used return Natural;
   function Probes return Natural;
end Tables;
