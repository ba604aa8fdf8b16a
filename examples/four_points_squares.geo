% The six distances of four points of the plane are not independent (Leonhard Euler; Arthur Cayley, 1841): the
% determinant of the products of the vectors from D to A, B and C is 0.
point A
point B
point C
point D
prove { equal { sum { sub { mult { pythagoras_difference3 D A D }
                                 { sub { mult { pythagoras_difference3 D B D } { pythagoras_difference3 D C D } }
                                       { mult { pythagoras_difference3 B D C } { pythagoras_difference3 B D C } } } }
                          { mult { pythagoras_difference3 A D B }
                                 { sub { mult { pythagoras_difference3 A D B } { pythagoras_difference3 D C D } }
                                       { mult { pythagoras_difference3 B D C } { pythagoras_difference3 A D C } } } } }
                    { mult { pythagoras_difference3 A D C }
                           { sub { mult { pythagoras_difference3 A D B } { pythagoras_difference3 B D C } }
                                 { mult { pythagoras_difference3 D B D } { pythagoras_difference3 A D C } } } } }
              { 0 } }
