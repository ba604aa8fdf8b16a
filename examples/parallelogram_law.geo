% The parallelogram law (classical): the squares of the two diagonals add up to the squares of the four sides.
point A
point B
point C
translate D B C A % AD is equal to BC
prove { equal { sum { pythagoras_difference3 A C A } { pythagoras_difference3 B D B } }
              { mult { 2 } { sum { pythagoras_difference3 A B A } { pythagoras_difference3 B C B } } } }
