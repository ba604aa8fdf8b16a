% A, B, C, D are harmonic points and P is any point. The parallel to PD through C is cut by PA and PB at equal
% distances from C (Apollonius of Perga, after Pappus).
point A
point B
param r
lratio C A B div { r } { sum { r } { 1 } }
lratio D A B div { r } { sub { r } { 1 } }
point P
line a P A
line b P B
line d P D
parallel c C d
intersec X c a
intersec Y c b
prove { midpoint C X Y }
