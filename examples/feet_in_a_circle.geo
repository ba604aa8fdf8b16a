% X is a point of the circumcircle of a triangle with the centre O and the radius R. The segment between its feet on
% the sides CA and CB has the length XC AB / 2R (classical; Ptolemy's theorem follows by the Simson line).
point O
point A
oncircle B O A
oncircle C O A
oncircle X O A
foot U X C A
foot V X C B
prove { equal { mult { mult { 4 } { pythagoras_difference3 O A O } } { pythagoras_difference3 U V U } }
              { mult { pythagoras_difference3 X C X } { pythagoras_difference3 A B A } } }
