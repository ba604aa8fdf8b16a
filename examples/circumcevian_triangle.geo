% A1, B1 and C1 are on the lines from a point P to the corners of a triangle, with PA PA1 = PB PB1 = PC PC1. The
% triangle A1B1C1 is similar to that of the feet X, Y, Z of P on the sides (classical): A1B1 is to A1C1 as XY to XZ,
% here in squares. Such are the inverses of the corners in a circle around P, and, where the product is the power of P,
% the points where the lines meet the circumcircle again. PB1 = p PB.
point P
point A
point B
point C
param p
lratio A1 P A div { mult { p } { pythagoras_difference3 P B P } } { pythagoras_difference3 P A P }
lratio B1 P B p
lratio C1 P C div { mult { p } { pythagoras_difference3 P B P } } { pythagoras_difference3 P C P }
foot X P B C
foot Y P C A
foot Z P A B
prove { equal { mult { pythagoras_difference3 A1 B1 A1 } { pythagoras_difference3 X Z X } }
              { mult { pythagoras_difference3 A1 C1 A1 } { pythagoras_difference3 X Y X } } }
