% A circle meets a parabola in four points whose numbers have the sum 0 (Rene Descartes, 1637, who solved equations
% so): A, B, C with the numbers a, b, c and D with -a-b-c are on one circle. The points are t OE + k t^2 OF for a
% square OE, OF.
point O
point E
tratio F O E 1
param k
param a
param b
param c
lratio A0 O E a
pratio A A0 O F mult { k } { mult { a } { a } }
lratio B0 O E b
pratio B B0 O F mult { k } { mult { b } { b } }
lratio C0 O E c
pratio C C0 O F mult { k } { mult { c } { c } }
lratio D0 O E neg { sum { a } { sum { b } { c } } }
pratio D D0 O F mult { k } { mult { sum { a } { sum { b } { c } } } { sum { a } { sum { b } { c } } } }
prove { concyclic A B C D }
