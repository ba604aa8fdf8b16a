% A circle through two corners (International Mathematical Olympiad 1985, problem 5): a circle around O passes through
% the corners A and C of a triangle and meets AB and BC again at K and N. The circles around the triangles ABC and KBN
% meet at B and M. Then the angle OMB is right. BK is r BA, and BK BA = BN BC.
point B
point A
point C
param r
lratio K B A r
lratio N B C div { mult { r } { pythagoras_difference3 B A B } } { pythagoras_difference3 B C B }
circumcenter O A C N
circumcenter X A B C
circumcenter Y K B N
cc M X Y B
prove { perpendicular O M M B }
