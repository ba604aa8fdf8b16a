% Brianchon's theorem (Charles Julien Brianchon, 1806) for a parabola: the three diagonals of a hexagon of tangents
% meet in one point. The tangents of the points with the numbers s and t meet at (s+t)/2 OE + s t OF.
point O
point E
point F
param a
param b
param c
param d
param e
lratio U O E div { sum { a } { b } } { 2 }
pratio A U O F mult { a } { b }
lratio V O E div { sum { b } { c } } { 2 }
pratio B V O F mult { b } { c }
lratio W O E div { sum { c } { d } } { 2 }
pratio C W O F mult { c } { d }
lratio X O E div { sum { d } { e } } { 2 }
pratio D X O F mult { d } { e }
lratio Y O E div { e } { 2 } % the sixth tangent is that of O
lratio Z O E div { a } { 2 }
inter S A D B Y
prove { collinear C Z S }
