% Isotomic conjugates (19th century): where three lines from the corners of a triangle meet in one point, so do the
% lines to the points that are the feet reflected in the midpoints of the sides.
point A
point B
point C
point P
inter D A P B C
inter E B P C A
inter F C P A B
translate D1 D B C
translate E1 E C A
translate F1 F A B
inter Q A D1 B E1
prove { collinear C F1 Q }
