% The isogonal conjugate of the Gergonne point is the inner centre of similitude S of incircle and circumcircle (19th
% century): the reflection of S in the bisector AI is on the line AD, where the incircle touches BC at D. The
% circumcenter O is found as in euler_chapple.geo from the centre N of the nine-point circle of DEF; R : r is r^2 /
% (r^2/2 - 2 IN^2), for r = ID, and S divides the segment from I to O as r : R.
point I
point D
oncircle E I D
oncircle F I D
translate H0 I D E
translate H I H0 F
midpoint N I H
midpoint M E F
inverse A M I D
lratio O I N div { pythagoras_difference3 I D I }
                 { sub { pythagoras_difference3 I N I } { div { pythagoras_difference3 I D I } { 4 } } }
lratio S I O div { 1 }
                 { sum { 1 }
                       { div { pythagoras_difference3 I D I }
                             { sub { div { pythagoras_difference3 I D I } { 2 } }
                                   { mult { 2 } { pythagoras_difference3 I N I } } } } }
reflect S1 S A I
prove { collinear A D S1 }
