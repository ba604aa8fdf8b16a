% A tangent from P touches the circle around O at T, and M is its midpoint. Each point X of the line through M
% perpendicular to OP has the square of its distance from P as its power: the line is the radical axis of the circle
% and the point, which is a circle of radius 0 (classical).
point O
point T
param k
tratio P T O k
midpoint M P T
tratio W O P 1
param s
pratio X M O W s
prove { equal { pythagoras_difference3 X P X }
              { sub { pythagoras_difference3 X O X } { pythagoras_difference3 O T O } } }
