% A square stands on the hypotenuse AB of a right triangle. The line from C to its centre Q bisects the right angle,
% where the square stands outside, and else the angle beside it (classical): the reflection of A in CQ is on CB.
point C
point A
param r
tratio B C A r
midpoint M A B
tratio Q M A 1
reflect A1 A C Q
prove { collinear C B A1 }
