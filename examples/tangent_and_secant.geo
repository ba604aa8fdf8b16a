% Tangent and secant (Euclid, Elements III.36): PT touches the circle around O at T, and PA meets it again at B. Then
% PT^2 is PA times PB.
point O
point T
param r
tratio P T O r % PT is perpendicular to the radius
oncircle A O T
second B A P O
prove { equal { pythagoras_difference3 P T P } { pythagoras_difference3 A P B } }
