% The circle around the triangle of three tangents of a parabola passes through the focus F (Johann Heinrich Lambert,
% 1761; so the circles of four lines meet in the focus of the parabola that touches the four). O is the vertex, OE the
% tangent there, and OF is k times as long; the tangents of the points with the numbers s and t meet at k(s+t) OE + s
% t OF.
point O
point E
param k
param a
param b
param c
tratio F O E k
lratio U O E mult { k } { sum { b } { c } }
pratio A U O F mult { b } { c }
lratio V O E mult { k } { sum { c } { a } }
pratio B V O F mult { c } { a }
lratio W O E mult { k } { sum { a } { b } }
pratio C W O F mult { a } { b }
prove { concyclic A B C F }
