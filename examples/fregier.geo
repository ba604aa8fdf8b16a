% Fregier's theorem for a parabola (Fregier, 1816): the chords of a conic that are seen from one of its points P under
% a right angle pass through one point R. Here R is 1/k along OF above the mirror image of P in the axis OF; the line
% from a point A of the parabola through R and the perpendicular to PA at P meet in a point B of the parabola. Its
% points are t OE + k t^2 OF, for a square OE, OF; B is such a point where four times the area OEB is 2k OX^2, with
% the foot X of B on OE.
point O
point E
tratio F O E 1
param k
param p
param a
lratio P0 O E p
pratio P P0 O F mult { k } { mult { p } { p } }
lratio A0 O E a
pratio A A0 O F mult { k } { mult { a } { a } }
lratio R0 O E neg { p }
pratio R R0 O F sum { mult { k } { mult { p } { p } } } { div { 1 } { k } }
tratio T P A 1
inter B A R P T
foot X B O E
prove { equal { mult { 4 } { signed_area3 O E B } } { mult { k } { pythagoras_difference3 O X O } } }
