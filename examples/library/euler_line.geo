% The Euler line (Leonhard Euler, 18th century): circumcenter, orthocenter and centroid of a triangle are on one line.
point A
point B
point C
circumcenter O A B C
orthocenter H A B C
centroid G A B C
prove { collinear O H G }
