with Parts, Registry; pragma Elaborate_All (Registry);
package Extras is
   Roof : constant Positive := Registry.Add (Parts.Door * 10);
end Extras;
