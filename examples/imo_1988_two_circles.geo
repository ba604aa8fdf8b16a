% Three squares in two concentric circles (International Mathematical Olympiad 1988, problem 1): P is a point of the
% inner of two circles around O. A chord BC of the outer circle goes through P, and PA is the chord of the inner
% circle perpendicular to it. The squares of AB, BC and CA add up to 6 R^2 + 2 r^2. The figure begins with O, P and A;
% B is on the perpendicular to PA at P, and C is its reflection in the line through O parallel to PA.
point O
point P
oncircle A O P
param s
tratio B P A s
translate O1 P A O
reflect C B O O1
prove { equal { sum { sum { pythagoras_difference3 A B A } { pythagoras_difference3 B C B } }
                    { pythagoras_difference3 C A C } }
              { sum { mult { 6 } { pythagoras_difference3 O B O } }
                    { mult { 2 } { pythagoras_difference3 O P O } } } }
