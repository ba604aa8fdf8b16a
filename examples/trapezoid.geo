% Steiner's theorem on the trapezoid (Jakob Steiner, 19th century): the line through the intersection of the diagonals
% and that of the legs bisects the parallel sides.
point A
point B
point D
param r
pratio C D A B r
inter P A D B C
inter Q A C B D
inter M A B P Q
prove { midpoint M A B }
