% The diagonals of a quadrilateral are perpendicular where the squares of two opposite sides have the same sum as
% those of the other two (classical). Here: with perpendicular diagonals the sums are equal.
point P
point A
param r
tratio B P A r
online C P A
online D B P
prove { equal { sum { pythagoras_difference3 A B A } { pythagoras_difference3 C D C } }
              { sum { pythagoras_difference3 B C B } { pythagoras_difference3 D A D } } }
