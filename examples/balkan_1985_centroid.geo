% A centroid in an isosceles triangle (Balkan Mathematical Olympiad 1985, problem 1): ABC is a triangle with AB = AC
% and the circumcenter O; D is the midpoint of AB and E the centroid of ACD. Then OE is perpendicular to CD.
point B
point C
midpoint M B C
param h
tratio A M C h
circumcenter O A B C
midpoint D A B
centroid E A C D
prove { perpendicular O E C D }
