% The lines from the corners of a triangle through a point P meet its circumcircle again at A1, B1, C1. The triangle
% A1B1C1 is similar to that of the feet X, Y, Z of P on the sides (classical): A1B1 is to A1C1 as XY to XZ, here in
% squares.
point O
point A
oncircle B O A
oncircle C O A
point P
second A1 A P O
second B1 B P O
second C1 C P O
foot X P B C
foot Y P C A
foot Z P A B
prove { equal { mult { pythagoras_difference3 A1 B1 A1 } { pythagoras_difference3 X Z X } }
              { mult { pythagoras_difference3 A1 C1 A1 } { pythagoras_difference3 X Y X } } }
