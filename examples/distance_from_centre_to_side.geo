% In a cyclic quadrilateral with perpendicular diagonals the distance from the centre to a side is half of the
% opposite side (classical). P is where the diagonals meet.
point P
point A
param r
tratio B P A r
online C P A
circumcenter O A B C
second D B P O
midpoint M A B
prove { equal { mult { 4 } { pythagoras_difference3 O M O } } { pythagoras_difference3 C D C } }
