% A pentagon of three similar triangles (shortlist of the International Mathematical Olympiad 2006, G3): ABCDE is a
% pentagon in which the triangles ABC, ACD and ADE are similar, and BD meets CE at P. The line AP halves the side CD.
% C is r AB and s AB turned by a quarter away from A, D has this place over AC, and E over AD.
point A
point B
param r
param s
lratio C0 A B r
tratio C1 A B s
translate C A C1 C0
lratio D0 A C r
tratio D1 A C s
translate D A D1 D0
lratio E0 A D r
tratio E1 A D s
translate E A E1 E0
inter P B D C E
midpoint M C D
prove { collinear A P M }
