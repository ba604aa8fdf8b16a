% Pythagoras' theorem (Euclid, Elements I.47): AB^2 + AC^2 = BC^2 where the angle at A is right.
point A
point B
param r
tratio C A B r
prove { equal { sum { pythagoras_difference3 A B A } { pythagoras_difference3 A C A } } { pythagoras_difference3 B C B } }
