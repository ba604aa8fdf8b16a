% There is no circle through the midpoints of the three diagonals of a complete quadrilateral: they are on one line.
% Impossible.
point A
point B
point C
point D
inter E A B C D
inter F A D B C
midpoint L A C
midpoint M B D
midpoint N E F
circumcenter O L M N
prove { same_length O L O M }
