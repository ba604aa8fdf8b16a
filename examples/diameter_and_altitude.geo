% The product of two sides of a triangle is the product of the diameter of the circumcircle and the altitude on the
% third side (Brahmagupta, 7th century): AB^2 AC^2 = 4 R^2 AD^2.
point A
point B
point C
circumcenter O A B C
foot D A B C
prove { equal { mult { pythagoras_difference3 A B A } { pythagoras_difference3 A C A } }
              { mult { mult { 4 } { pythagoras_difference3 O A O } } { pythagoras_difference3 A D A } } }
