% The squares of the diagonals of a trapezoid add up to the squares of the legs and twice the product of the parallel
% sides (Euler's theorem for the trapezoid). The side DC is r times AB.
point A
point B
point D
param r
pratio C D A B r
prove { equal { sum { pythagoras_difference3 A C A } { pythagoras_difference3 B D B } }
              { sum { sum { pythagoras_difference3 B C B } { pythagoras_difference3 D A D } }
                    { mult { mult { 2 } { r } } { pythagoras_difference3 A B A } } } }
