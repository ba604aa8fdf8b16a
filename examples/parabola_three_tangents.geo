% Three tangents of a parabola cut one another in equal ratios (Apollonius of Perga, Conics III.41): the tangents of A
% and B meet at R, that of C meets them at P and Q; then AP : PR is RQ : QB. A point with the number t is t OE + t^2
% OF away from O; the tangents of the numbers s and t meet at (s+t)/2 OE + s t OF.
point O
point E
point F
param a
param b
param c
lratio U O E div { sum { a } { b } } { 2 }
pratio R U O F mult { a } { b }
lratio V O E div { sum { a } { c } } { 2 }
pratio P V O F mult { a } { c }
lratio W O E div { sum { b } { c } } { 2 }
pratio Q W O F mult { b } { c }
lratio X O E a
pratio A X O F mult { a } { a }
lratio Y O E b
pratio B Y O F mult { b } { b }
prove { equal { sratio A P P R } { sratio R Q Q B } }
