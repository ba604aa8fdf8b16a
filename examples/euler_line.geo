% The Euler line (Leonhard Euler, 18th century): circumcenter, orthocenter and centroid of a triangle are on one line.
point A 20 20 % a triangle
point B 80 20
point C 40 60
circumcenter O A B C
orthocenter H A B C
centroid G A B C
prove { collinear O H G }
