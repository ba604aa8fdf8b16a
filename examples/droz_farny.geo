% The Droz-Farny line theorem (Arnold Droz-Farny, 1899): two perpendicular lines through the orthocenter of a triangle
% meet its three sides; the midpoints between the two points of each side are on one line. The triangle ABC is made
% from its orthocenter H, the two lines, and two sides.
point H
point D
param a
param b
param c
tratio D1 H D a % side BC meets the two lines at D and D1
lratio E H D b % side CA meets them at E and E1
lratio E1 H D1 c
inter C D D1 E E1
foot K H D D1
inter A H K E E1 % AH is perpendicular to BC
tratio L H C 1
translate M H L A
inter F A M H D % side AB is perpendicular to CH
inter F1 A M H D1
midpoint X D D1
midpoint Y E E1
midpoint Z F F1
prove { collinear X Y Z }
