% Miquel's theorem on six circles (Auguste Miquel, 1838): A, B, C, D are on one circle, A1, B1, C1, D1 on another one.
% Where A, B, A1, B1 are on one circle, and so are B, C, B1, C1 and C, D, C1, D1, so are D, A, D1, A1. The lines AB
% and A1B1 meet on the radical axis HU of the first two circles, at P; in the same way BC and B1C1 meet there at Q,
% and CD and C1D1 at R. With HU as the unit, P, Q, R are at p, q, r from the foot H of the line of the centres, and
% have the powers p^2 + v, q^2 + v and r^2 + v. Here: DA meets the axis at a point S that depends on p, q, r and v
% alone; so D1A1 meets it there too, and SA SD = SA1 SD1.
point H
point U
param v
param p
param q
param r
lratio P H U p
lratio Q H U q
lratio R H U r
point A
lratio B P A div { mult { sum { mult { p } { p } } { v } } { pythagoras_difference3 H U H } }
                 { pythagoras_difference3 P A P }
lratio C Q B div { mult { sum { mult { q } { q } } { v } } { pythagoras_difference3 H U H } }
                 { pythagoras_difference3 Q B Q }
lratio D R C div { mult { sum { mult { r } { r } } { v } } { pythagoras_difference3 H U H } }
                 { pythagoras_difference3 R C R }
lratio S H U div { sum { mult { v } { sum { sub { p } { q } } { r } } } { mult { p } { mult { q } { r } } } }
                 { sum { v } { sum { sub { mult { p } { q } } { mult { p } { r } } } { mult { q } { r } } } }
prove { collinear A D S }
