% The Droz-Farny line theorem (Arnold Droz-Farny, 1899) from the triangle: two perpendicular lines through the
% orthocenter H meet the sides at D and D1, E and E1, F and F1; the midpoints of these pairs are on one line.
point A
point B
point C
orthocenter H A B C
point U
tratio V H U 1
inter D H U B C
inter E H U C A
inter F H U A B
inter D1 H V B C
inter E1 H V C A
inter F1 H V A B
midpoint X D D1
midpoint Y E E1
midpoint Z F F1
prove { collinear X Y Z }
