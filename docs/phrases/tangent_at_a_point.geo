% proved: the square of the tangent's length
point O
point T
param k
tratio P T O k
prove { equal { sum { pythagoras_difference3 P T P } { pythagoras_difference3 O T O } } { pythagoras_difference3 P O P } }
