% The sides of the triangle of the feet of the altitudes meet the sides of the triangle on a line that is
% perpendicular to the Euler line (classical). The figure begins with the foot D and the corner B; DA and DC are a and
% c times as long as DB, so the orthocenter H is -c/a times as far on DA.
point D
point B
param a
param c
tratio A D B a
lratio C D B c
tratio H D B div { neg { c } } { a }
centroid G A B C
foot E B C A
foot F C A B
inter X B C E F
inter Y C A F D
prove { perpendicular X Y G H }
