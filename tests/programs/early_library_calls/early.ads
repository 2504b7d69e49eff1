with Ready, Unready, Alone;
pragma Elaborate (Ready);
package Early is
   pragma Elaborate_Body;
end Early;
