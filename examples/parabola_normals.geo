% Three normals of a parabola meet in one point where the numbers of their points have the sum 0, so that the centroid
% of the three points is on the axis (classical). The points are t OE + k t^2 OF, for a square OE, OF, and the tangent
% passes through t/2 OE; A, B and C have the numbers a, b and -a-b.
point O
point E
tratio F O E 1
param k
param a
param b
lratio A0 O E a
pratio A A0 O F mult { k } { mult { a } { a } }
lratio B0 O E b
pratio B B0 O F mult { k } { mult { b } { b } }
lratio C0 O E neg { sum { a } { b } }
pratio C C0 O F mult { k } { mult { sum { a } { b } } { sum { a } { b } } }
lratio A1 O E div { a } { 2 }
tratio A2 A A1 1 % the normal is A A2
lratio B1 O E div { b } { 2 }
tratio B2 B B1 1
lratio C1 O E div { neg { sum { a } { b } } } { 2 }
tratio C2 C C1 1
inter S A A2 B B2
prove { collinear C C2 S }
