% The six corners of two triangles whose sides touch one parabola are on one conic (Charles Julien Brianchon, 1817):
% the hexagon A P C R B Q of the corners A, B, C and P, Q, R has Pascal's line. The tangents of the points with the
% numbers s and t meet at (s+t)/2 OE + st OF; the lines BC, CA, AB have the numbers a, b, c, and QR, RP, PQ have d, e
% and 0.
point O
point E
point F
param a
param b
param c
param d
param e
lratio A0 O E div { sum { b } { c } } { 2 }
pratio A A0 O F mult { b } { c }
lratio B0 O E div { sum { c } { a } } { 2 }
pratio B B0 O F mult { c } { a }
lratio C0 O E div { sum { a } { b } } { 2 }
pratio C C0 O F mult { a } { b }
lratio R0 O E div { sum { d } { e } } { 2 }
pratio R R0 O F mult { d } { e }
lratio P O E div { e } { 2 }
lratio Q O E div { d } { 2 }
inter K A P B R
inter L A Q C R
inter M B Q C P
prove { collinear K L M }
