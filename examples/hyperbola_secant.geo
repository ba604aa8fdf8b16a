% A secant of a hyperbola meets it at A and B and the asymptotes at X and Y: the outer pieces XA and BY are equal
% (Apollonius of Perga, Conics II.8). The points of the hyperbola are t OE + 1/t OF, the asymptotes are OE and OF.
point O
point E
point F
param a
param b
lratio U O E a
pratio A U O F div { 1 } { a }
lratio V O E b
pratio B V O F div { 1 } { b }
inter X A B O E
translate Y X A B
prove { collinear O F Y }
