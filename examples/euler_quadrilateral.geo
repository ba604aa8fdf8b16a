% Euler's quadrilateral theorem (Leonhard Euler, 18th century): the squares of the four sides add up to those of the
% diagonals and four times that of the segment between the midpoints of the diagonals.
point A
point B
point C
point D
midpoint M A C
midpoint N B D
prove { equal { sum { sum { pythagoras_difference3 A B A } { pythagoras_difference3 B C B } }
                    { sum { pythagoras_difference3 C D C } { pythagoras_difference3 D A D } } }
              { sum { sum { pythagoras_difference3 A C A } { pythagoras_difference3 B D B } }
                    { mult { 4 } { pythagoras_difference3 M N M } } } }
