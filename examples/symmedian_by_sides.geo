% The symmedian divides the opposite side in the ratio of the squares of the other two, and not of these themselves,
% as the bisector does. False: the point D of the symmedian is not on the bisector AU. V and W are at equal distances
% from A on the sides. Counterexample: A = (0, 0), B = (1, -1), C = (2, 2): the bisector is the first axis, and D =
% (6/5, -2/5).
point A
point U
param r
tratio V U A r
symmetric W V U
param p
param k
lratio B A V p
lratio C A W k
lratio D B C div { pythagoras_difference3 A B A }
                 { sum { pythagoras_difference3 A B A } { pythagoras_difference3 A C A } }
prove { collinear A U D }
