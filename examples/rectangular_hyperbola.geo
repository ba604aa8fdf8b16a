% The orthocenter of a triangle whose corners are on a rectangular hyperbola is on it (Brianchon and Poncelet, 1821).
% The points are t OE + 1/t OF for a square OE, OF; the orthocenter has the number -1/abc.
point O
point E
tratio F O E 1
param a
param b
param c
lratio U O E a
pratio A U O F div { 1 } { a }
lratio V O E b
pratio B V O F div { 1 } { b }
lratio W O E c
pratio C W O F div { 1 } { c }
lratio X O E div { -1 } { mult { mult { a } { b } } { c } }
pratio H X O F mult { mult { neg { a } } { b } } { c }
prove { perpendicular A H B C }
