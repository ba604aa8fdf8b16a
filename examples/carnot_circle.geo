% Carnot's theorem (Lazare Carnot, 1803): a circle meets the sides BC, CA, AB of a triangle in D and X, E and Y, F and
% Z; then BD BX CE CY AF AZ = BF BZ CD CX AE AY (so where AD, BE and CF meet in one point, AX, BY and CZ do: Terquem's
% theorem). The figure begins with A, E and F; Z, D and X are found by the powers of A, of a point T of AB, and of B.
point A
point E
point F
param r
lratio Y A E r
lratio Z A F div { mult { r } { pythagoras_difference3 A E A } } { pythagoras_difference3 A F A }
online T A F
lratio D T E div { pythagoras_difference3 F T Z } { pythagoras_difference3 T E T }
online B A F
inter C D B A E
lratio X B D div { pythagoras_difference3 F B Z } { pythagoras_difference3 B D B }
prove { equal { mult { mult { pythagoras_difference3 D B X } { pythagoras_difference3 E C Y } }
                     { pythagoras_difference3 F A Z } }
              { mult { mult { pythagoras_difference3 F B Z } { pythagoras_difference3 D C X } }
                     { pythagoras_difference3 E A Y } } }
