% The triangle of three tangents of a parabola has half of the area of the triangle of the points of contact
% (classical). A point with the number t is t OE + t^2 OF away from O; the tangents of the numbers s and t meet at
% (s+t)/2 OE + s t OF.
point O
point E
point F
param a
param b
param c
lratio U O E a
pratio A U O F mult { a } { a }
lratio V O E b
pratio B V O F mult { b } { b }
lratio W O E c
pratio C W O F mult { c } { c }
lratio U1 O E div { sum { b } { c } } { 2 }
pratio X U1 O F mult { b } { c }
lratio V1 O E div { sum { c } { a } } { 2 }
pratio Y V1 O F mult { c } { a }
lratio W1 O E div { sum { a } { b } } { 2 }
pratio Z W1 O F mult { a } { b }
prove { equal { mult { -2 } { signed_area3 X Y Z } } { signed_area3 A B C } }
