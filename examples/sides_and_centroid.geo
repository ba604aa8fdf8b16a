% The squares of the sides of a triangle add up to three times those of the distances from the centroid to the corners
% (classical).
point A
point B
point C
centroid G A B C
prove { equal { sum { sum { pythagoras_difference3 A B A } { pythagoras_difference3 B C B } }
                    { pythagoras_difference3 C A C } }
              { mult { 3 }
                     { sum { sum { pythagoras_difference3 G A G } { pythagoras_difference3 G B G } }
                           { pythagoras_difference3 G C G } } } }
