% Clifford's theorem on five lines (Auguste Miquel, 1838; William Kingdon Clifford, 1871): each four of five lines
% have a Miquel point; the five points are on one circle. F is the Miquel point of the first four, the focus of the
% parabola that touches them, and E is the vertex. With X_s for the point X + s J FX, where J is a quarter-turn, the
% tangents with the numbers s and t meet at E_st, the point (E_s)_t. The four have the numbers n + x, n + y, n + z, n
% + t, and the fifth line has the points where the tangents with the numbers n + s and n + k/s meet. M is the Miquel
% point of the first three and the fifth (see miquel_point_of_three_tangents.geo). Z is the centre: HZ is
% perpendicular to FM at its midpoint H, and Z does not change where x, y, z and t are exchanged.
point F
point E
param n
param k
param x
param y
param z
param t
tratio A0 F E sum { n } { x }
translate A F E A0
tratio B0 F A sum { n } { y }
translate B F A B0
tratio W0 F B sum { n } { z }
translate W F B W0
lratio U F W div { mult { k } { k } }
                 { sum { mult { sum { mult { x } { mult { y } { z } } } { mult { k } { n } } }
                              { sum { mult { x } { mult { y } { z } } } { mult { k } { n } } } }
                       { mult { k } { k } } }
tratio V F W div { neg { mult { k } { sum { mult { x } { mult { y } { z } } } { mult { k } { n } } } } }
                 { sum { mult { sum { mult { x } { mult { y } { z } } } { mult { k } { n } } }
                              { sum { mult { x } { mult { y } { z } } } { mult { k } { n } } } }
                       { mult { k } { k } } }
translate M F U V
tratio X0 F W sum { n } { t }
translate X F W X0
lratio K F X div { neg { k } }
                 { mult { 2 }
                        { sub { mult { x } { mult { y } { mult { z } { t } } } }
                              { mult { k } { sum { mult { n } { n } } { 1 } } } } }
tratio L F X div { mult { k } { n } }
                 { mult { 2 }
                        { sub { mult { x } { mult { y } { mult { z } { t } } } }
                              { mult { k } { sum { mult { n } { n } } { 1 } } } } }
translate Z F K L
midpoint H F M
prove { perpendicular H Z F M }
