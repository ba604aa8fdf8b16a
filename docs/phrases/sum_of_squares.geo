% proved: Pythagoras' theorem
point A
point B
param r
tratio C A B r
prove { equal { sum { pythagoras_difference3 A B A } { pythagoras_difference3 A C A } } { pythagoras_difference3 B C B } }
