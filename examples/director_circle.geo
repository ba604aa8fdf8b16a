% Perpendicular tangents of an ellipse meet on a circle around its centre, whose radius has the square a^2 + b^2 =
% 2a^2 - c^2 (Philippe de La Hire, 1685). F and K are the foci; the mirror images G and H of F in the tangents have
% the distance 2a from K. So the angle GFH is right, and the tangents, the perpendicular bisectors of FG and FH, meet
% in the midpoint R of GH; O is the midpoint of FK, with FK = 2c. Here: 4 OR^2 = 2 KG^2 - FK^2.
point F
point G
param r
tratio H F G r
midpoint R G H
param s
tratio K R G s
midpoint O F K
prove { equal { mult { 4 } { pythagoras_difference3 O R O } }
              { sub { mult { 2 } { pythagoras_difference3 K G K } } { pythagoras_difference3 F K F } } }
