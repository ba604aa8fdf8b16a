% A Japanese temple tablet (Gunma, 1824): two circles with radii a^2 and b^2 that touch each other and a line touch it
% at a distance of 2ab; the circle between them and the line has the radius c^2 with 1/c = 1/a + 1/b. The first circle
% touches the line EF at E, the second one with the centre Q at X; the circle with the radius c^2 and the centre R
% touches the line 2ac behind E, and here it is seen to touch the second one. EF is the unit of length.
point E
point F
param a
param b
tratio H E F 1 % EF and EH are units
lratio X E F mult { mult { 2 } { a } } { b }
lratio Y E F div { mult { mult { mult { 2 } { a } } { a } } { b } } { sum { a } { b } }
lratio U E H mult { b } { b }
translate Q E U X
lratio V E H div { div { mult { mult { mult { a } { a } } { b } } { b } } { sum { a } { b } } } { sum { a } { b } }
translate R E V Y
prove { equal { pythagoras_difference3 Q R Q }
              { mult { mult { sum { mult { b } { b } }
                                  { div { div { mult { mult { mult { a } { a } } { b } } { b } } { sum { a } { b } } }
                                        { sum { a } { b } } } }
                            { sum { mult { b } { b } }
                                  { div { div { mult { mult { mult { a } { a } } { b } } { b } } { sum { a } { b } } }
                                        { sum { a } { b } } } } }
                     { pythagoras_difference3 E F E } } }
