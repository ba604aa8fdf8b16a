% A circle through two corners (International Mathematical Olympiad 1985, problem 5): a circle around O passes through
% the corners A and C of a triangle and meets AB and BC again at K and N. The circles around the triangles ABC and KBN
% meet at B and M. Then the angle OMB is right. BK is r BA, and BK BA = BN BC. The line BM goes through the
% intersection X of AC and KN, with XB XM = XA XC; here the foot M of O on BX is this point.
point B
point A
point C
param r
lratio K B A r
lratio N B C div { mult { r } { pythagoras_difference3 B A B } } { pythagoras_difference3 B C B }
inter X A C K N
circumcenter O A C K
foot M O B X
prove { equal { pythagoras_difference3 B X M } { pythagoras_difference3 A X C } }
