% Archimedes, Quadrature of the Parabola 21: the triangle over half of a chord of a parabola has an eighth of the area
% of the triangle over the whole chord. A point with the number t is t OE + t^2 OF away from O; A and B have the
% numbers a and b, C their mean, and D the mean of A's number and C's.
point O
point E
point F
param a
param b
lratio U O E a
pratio A U O F mult { a } { a }
lratio V O E b
pratio B V O F mult { b } { b }
lratio W O E div { sum { a } { b } } { 2 }
pratio C W O F div { mult { sum { a } { b } } { sum { a } { b } } } { 4 }
lratio X O E div { sum { mult { 3 } { a } } { b } } { 4 }
pratio D X O F div { mult { sum { mult { 3 } { a } } { b } } { sum { mult { 3 } { a } } { b } } } { 16 }
prove { equal { mult { 8 } { signed_area3 A D C } } { signed_area3 A C B } }
