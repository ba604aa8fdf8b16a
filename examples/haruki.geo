% Haruki's lemma (Hiroshi Haruki, 20th century): A, B, C, D are on a circle. For each point P of the circle the lines
% PC and PD cut AB at X and Y so that AX YB / XY is the same number; here for P and Q, with U and V in the place of X
% and Y. The figure begins with A, B and P; AX, AY and AU are x, y and u times AB, and C, D and Q are found by the
% power of X, Y and U.
point A
point B
point P
param x
param y
param u
lratio X A B x
lratio Y A B y
lratio C X P div { mult { mult { x } { sub { x } { 1 } } } { pythagoras_difference3 A B A } }
                 { pythagoras_difference3 X P X }
lratio D Y P div { mult { mult { y } { sub { y } { 1 } } } { pythagoras_difference3 A B A } }
                 { pythagoras_difference3 Y P Y }
lratio U A B u
lratio Q U C div { mult { mult { u } { sub { u } { 1 } } } { pythagoras_difference3 A B A } }
                 { pythagoras_difference3 U C U }
inter V A B Q D
prove { equal { mult { mult { x } { sub { 1 } { y } } } { sub { sratio A V A B } { u } } }
              { mult { mult { u } { sub { 1 } { sratio A V A B } } } { sub { y } { x } } } }
