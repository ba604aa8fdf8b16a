% The orthocenters of the feet of a point (International Mathematical Olympiad 1965, problem 5): from a point M of the
% side AB of a triangle OAB the perpendiculars MP and MQ are drawn to OA and OB. The orthocenter H of OPQ is on the
% line of the feet C and D of the altitudes from A and B. Here the point H of CD that divides it as M divides AB is on
% the altitude from P; it is on that from Q likewise.
point O
point A
point B
param m
lratio M A B m
foot P M O A
foot C A O B
foot D B O A
lratio H C D m
prove { perpendicular P H O B }
