% The centre N of the nine-point circle is on the Euler line (19th century): behind the centroid G, with ON = 3/2 OG. Its
% distances to the midpoints of the sides are equal.
point A
point B
point C
circumcenter O A B C
centroid G A B C
lratio N O G div { 3 } { 2 }
midpoint D B C
midpoint E C A
prove { same_length N D N E }
