% A and B are points of a hyperbola. The parallelogram with the diagonal AB and sides parallel to the asymptotes has
% its other diagonal on a line with the centre (classical). The points of the hyperbola are t OE + 1/t OF.
point O
point E
point F
param a
param b
lratio U O E a
pratio A U O F div { 1 } { a }
lratio V O E b
pratio B V O F div { 1 } { b }
line x O E
line y O F
parallel p A x
parallel q B y
parallel r B x
parallel s A y
intersec P p q
intersec Q r s
prove { collinear O P Q }
