% The diagonals of a quadrilateral meet at P. The circumcenters of the triangles PAB, PBC, PCD and PDA are the corners
% of a parallelogram (classical).
point P
point A
point B
param u
param v
lratio C P A u
lratio D P B v
med a P A
med b P B
med c P C
med d P D
intersec K a b
intersec L b c
intersec M c d
intersec N d a
prove { parallel K L M N }
