% Three lines reflected in a line (United States of America Mathematical Olympiad 2012, problem 5): G is a line
% through a point P. The reflections of the lines PA, PB and PC in G meet the sides BC, CA and AB of a triangle at
% three points of one line. U is a second point of G.
point P
point U
point A
point B
point C
reflect A1 A P U
reflect B1 B P U
reflect C1 C P U
inter X B C P A1
inter Y C A P B1
inter Z A B P C1
prove { collinear X Y Z }
