% The power of the orthocenter for the circumcircle is twice the product of the parts of an altitude: R^2 - OH^2 = 2
% AH HD (classical), with H by vectors from the circumcenter O.
point O
point A
oncircle B O A
oncircle C O A
translate K O A B
translate H O K C
foot D A B C
prove { equal { sub { pythagoras_difference3 O A O } { pythagoras_difference3 O H O } }
              { mult { -2 } { pythagoras_difference3 A H D } } }
