% Ptolemy's theorem (Claudius Ptolemy, 2nd century): in a quadrilateral on a circle the product of the diagonals, z,
% is the sum x + y of the products of opposite sides. In squares: (z^2 - x^2 - y^2)^2 = 4 x^2 y^2.
point O
point A
oncircle B O A
oncircle C O A
oncircle D O A
prove { equal { mult { sub { sub { mult { pythagoras_difference3 A C A } { pythagoras_difference3 B D B } }
                                 { mult { pythagoras_difference3 A B A } { pythagoras_difference3 C D C } } }
                           { mult { pythagoras_difference3 B C B } { pythagoras_difference3 D A D } } }
                     { sub { sub { mult { pythagoras_difference3 A C A } { pythagoras_difference3 B D B } }
                                 { mult { pythagoras_difference3 A B A } { pythagoras_difference3 C D C } } }
                           { mult { pythagoras_difference3 B C B } { pythagoras_difference3 D A D } } } }
              { mult { mult { mult { mult { 4 } { pythagoras_difference3 A B A } } { pythagoras_difference3 C D C } }
                            { pythagoras_difference3 B C B } }
                     { pythagoras_difference3 D A D } } }
