% The line of the orthocenters of the triangles of four lines is perpendicular to the line of the midpoints of the
% diagonals (the Gauss-Bodenmiller theorem; 19th century). One line has the points D, E, F; the others pass through
% these, with the slopes a, b, c against DE, and make the triangle ABC. K and M are two of the orthocenters, as
% intersections of two altitudes from points of DE.
point D
point E
online F D E
param a
param b
param c
tratio N D E 1
pratio A1 N E D a % D A1 is perpendicular to the line through D
pratio B1 N E D b
pratio C1 N E D c
translate AE D A1 E
translate AF D A1 F
inter K D B1 E AE % the lines of D and E
inter M F AF D C1 % the lines of F and D
pratio A2 E D N a % the line through D is D A2
pratio B2 E D N b
translate B3 D B2 E
pratio C2 E D N c
translate C3 D C2 F
inter B F C3 D A2
inter C D A2 E B3
midpoint Y B E
midpoint Z C F
prove { perpendicular M K Y Z }
