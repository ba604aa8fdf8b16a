% The intersections P of the legs and Q of the diagonals of a trapezoid and the midpoints M and N of its parallel
% sides are harmonic points (Jakob Steiner, 1833). PD is r times PA, and PC is r times PB.
point P
point A
point B
param r
lratio D P A r
lratio C P B r
midpoint M A B
midpoint N C D
inter Q P M A C
prove { harmonic P Q M N }
