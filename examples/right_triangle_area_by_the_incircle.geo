% The incircle of a right triangle divides the hypotenuse into two parts; their product is the area (classical). The
% corner C is the right angle, CU is the unit, the incircle has the radius r, and A is x beyond its point on CA; then
% B is r (x + r) / (x - r) beyond its point on CB. D is the foot of the incenter I on AB.
point C
point U
param r
param x
lratio K C U r
tratio L C U r
translate I C K L
lratio A C U sum { r } { x }
tratio B C U sum { r } { div { mult { r } { sum { x } { r } } } { sub { x } { r } } }
foot D I A B
prove { equal { mult { 2 } { signed_area3 C A B } } { neg { pythagoras_difference3 A D B } } }
