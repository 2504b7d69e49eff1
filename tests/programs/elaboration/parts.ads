with Registry; pragma Elaborate_All (Registry);
package Parts is
   Wheel : constant Positive := Registry.Add (4);
   Door  : constant Positive := Registry.Add (2);
end Parts;
