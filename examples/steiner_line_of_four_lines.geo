% The orthocenters of the triangles that four lines make are on one line (Jakob Steiner, 1828). One line has the
% points D, E, F; the others pass through these, with the slopes a, b, c against DE. Here three of the orthocenters,
% each as the intersection of two altitudes from points of DE.
point D
point E
online F D E
param a
param b
param c
tratio N D E 1
pratio A1 N E D a % D A1 is perpendicular to the line through D
pratio B1 N E D b
pratio C1 N E D c
translate AE D A1 E
translate BF D B1 F
translate CE D C1 E
translate AF D A1 F
inter K D B1 E AE % the lines of D and E
inter L E CE F BF % the lines of E and F
inter M F AF D C1 % the lines of F and D
prove { collinear K L M }
