% The Newton-Gauss line (Carl Friedrich Gauss, 1810): the midpoints of the three diagonals of a complete quadrilateral
% are on one line.
point A
point B
point C
point D
inter E A B C D
inter F A D B C
midpoint L A C
midpoint M B D
midpoint N E F
prove { collinear L M N }
