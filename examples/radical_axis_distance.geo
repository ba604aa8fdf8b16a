% The difference of two powers (John Casey, A Sequel to Euclid, 1881): the powers of a point X for two circles differ
% by twice the product of the distance of the centres and the distance of X from the radical axis. The circles are
% around O through A and around P through B; the radical axis is perpendicular to OP through L, the foot of X on OP is
% K, and V is such that LV is OP as a vector.
point O
point A
point P
point B
lratio L O P div { sub { sum { pythagoras_difference3 O P O } { pythagoras_difference3 O A O } }
                       { pythagoras_difference3 P B P } }
                 { mult { 2 } { pythagoras_difference3 O P O } }
point X
foot K X O P
translate V O P L
prove { equal { sub { sub { pythagoras_difference3 X O X } { pythagoras_difference3 O A O } }
                    { sub { pythagoras_difference3 X P X } { pythagoras_difference3 P B P } } }
              { mult { 2 } { pythagoras_difference3 V L K } } }
