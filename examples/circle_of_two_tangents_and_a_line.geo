% The circle of two tangents of a parabola and a line (a step to Clifford's theorem on five lines). F is the focus and
% E the vertex. With X_s for the point X + s J FX, where J is a quarter-turn, the tangents with the numbers s and t
% meet at E_st, the point (E_s)_t. Those with the numbers n + s and n + k/s meet on a line e, the same one for all s.
% The tangents with the numbers n + x and n + y meet at B, and the first meets e at P. The centre O of the circle of
% the two tangents and e has the place 1 + q - n q J over FB, for q = (k - xy) / 2xy. Here: OP = OB; the second
% tangent meets e as far from O, since x and y can be exchanged.
point F
point E
param n
param k
param x
param y
tratio A0 F E sum { n } { x }
translate A F E A0
tratio B0 F A sum { n } { y }
translate B F A B0
tratio P0 F A sum { n } { div { k } { x } }
translate P F A P0
lratio O0 F B sum { 1 } { div { sub { k } { mult { x } { y } } } { mult { 2 } { mult { x } { y } } } }
tratio O1 F B neg { mult { n } { div { sub { k } { mult { x } { y } } } { mult { 2 } { mult { x } { y } } } } }
translate O F O0 O1
prove { same_length O P O B }
