% The tangents at the ends of a chord of a parabola meet at R; the parabola bisects the segment from R to the midpoint
% M of the chord (Archimedes, Quadrature of the Parabola; Apollonius, Conics I). A point of the parabola with the
% number t is t OE + t^2 OF away from O, and its tangent passes through the point t/2 OE.
point O
point E
point F
param a
param b
lratio U O E a
pratio A U O F mult { a } { a }
lratio V O E b
pratio B V O F mult { b } { b }
lratio P O E div { a } { 2 }
lratio Q O E div { b } { 2 }
inter R A P B Q
midpoint M A B
lratio W O E div { sum { a } { b } } { 2 }
pratio D W O F div { mult { sum { a } { b } } { sum { a } { b } } } { 4 }
prove { midpoint D R M }
