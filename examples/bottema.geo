% Bottema's theorem (Oene Bottema, 20th century): squares stand outside on the sides AC and BC of a triangle. The
% midpoint between their corners next to A and B does not depend on C: it is the centre of a square on AB.
point A
point B
point C
tratio P A C 1
tratio Q B C -1
midpoint M P Q
midpoint D A B
tratio E D B 1
prove { identical M E }
