% The square on a leg of a right triangle is equal to the rectangle of the hypotenuse and the leg's projection on it
% (Euclid, Elements I.47 and VI.8, corollary).
point C
point A
param r
tratio B C A r
foot D C A B
prove { equal { pythagoras_difference3 A C A } { pythagoras_difference3 D A B } }
