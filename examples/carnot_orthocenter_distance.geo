% AH^2 + BC^2 = 4 R^2 for the orthocenter H and the circumradius R of a triangle (classical). The orthocenter is the
% sum of the vectors from the circumcenter O.
point O
point A
oncircle B O A
oncircle C O A
translate K O B A
translate H O C K
prove { equal { sum { pythagoras_difference3 A H A } { pythagoras_difference3 B C B } }
              { mult { 4 } { pythagoras_difference3 O A O } } }
