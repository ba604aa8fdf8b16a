% The line through circumcenter O and centroid and that through centroid and orthocenter H are one line, the Euler
% line, and have no single intersection. Impossible.
point O
point A
oncircle B O A
oncircle C O A
centroid G A B C
translate K O A B
translate H O K C
line e O G
line f G H
intersec X e f
prove { collinear A X H }
