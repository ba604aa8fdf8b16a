% Hart's inversor (Harry Hart, 1874): in the crossed quadrilateral ABCD opposite sides are equal, since C and D are
% the reflections of A and B in one line. The points O, P, Q divide AB, AD and CB in one ratio r; the vectors OP and
% OQ, which are parallel, have the product r (1 - r) (AD^2 - AB^2), so it stays the same where the quadrilateral
% moves.
point A
point B
point U
point V
reflect C A U V
reflect D B U V
param r
lratio O A B r
lratio P A D r
lratio Q C B r
prove { equal { pythagoras_difference3 P O Q }
              { mult { mult { r } { sub { 1 } { r } } }
                     { sub { pythagoras_difference3 A D A } { pythagoras_difference3 A B A } } } }
