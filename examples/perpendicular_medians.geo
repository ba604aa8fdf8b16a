% Where the medians from A and B are perpendicular, the squares of the sides CA and CB are together five times that of
% AB (classical). The triangle is made from its centroid G.
point G
point A
param r
tratio B G A r
midpoint F A B
lratio C G F -2
prove { equal { sum { pythagoras_difference3 C A C } { pythagoras_difference3 C B C } }
              { mult { 5 } { pythagoras_difference3 A B A } } }
