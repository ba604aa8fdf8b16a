% The Miquel point of three tangents of a parabola and a line (Jakob Steiner, 1828). F is the focus and E the vertex.
% With X_s for the point X + s J FX, where J is a quarter-turn, the tangents with the numbers s and t meet at E_st,
% the point (E_s)_t. The line has the points where those with the numbers n + s and n + k/s meet. The three tangents
% have the numbers n + x, n + y, n + z. W is ((E_s)_t)_u for their numbers s, t, u, and M has the place
% (k^2 - k d J) / (d^2 + k^2) over FW, for d = xyz + kn. Here: M is on the circle of the first two tangents and the
% line, whose centre is O (see circle_of_two_tangents_and_a_line.geo), for OM = OB; so it is on the circle of each two,
% since x, y and z can be exchanged.
point F
point E
param n
param k
param x
param y
param z
tratio A0 F E sum { n } { x }
translate A F E A0
tratio B0 F A sum { n } { y }
translate B F A B0
tratio W0 F B sum { n } { z }
translate W F B W0
lratio O0 F B sum { 1 } { div { sub { k } { mult { x } { y } } } { mult { 2 } { mult { x } { y } } } }
tratio O1 F B neg { mult { n } { div { sub { k } { mult { x } { y } } } { mult { 2 } { mult { x } { y } } } } }
translate O F O0 O1
lratio U F W div { mult { k } { k } }
                 { sum { mult { sum { mult { x } { mult { y } { z } } } { mult { k } { n } } }
                              { sum { mult { x } { mult { y } { z } } } { mult { k } { n } } } }
                       { mult { k } { k } } }
tratio V F W div { neg { mult { k } { sum { mult { x } { mult { y } { z } } } { mult { k } { n } } } } }
                 { sum { mult { sum { mult { x } { mult { y } { z } } } { mult { k } { n } } }
                              { sum { mult { x } { mult { y } { z } } } { mult { k } { n } } } }
                       { mult { k } { k } } }
translate M F U V
prove { same_length O M O B }
