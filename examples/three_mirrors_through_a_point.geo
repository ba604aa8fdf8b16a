% Reflections in three lines through one point O make a reflection in a line through O (classical): the midpoints of
% two points and their images are on one line with O.
point O
point A
point B
point C
point P
point X
reflect P1 P O A
reflect P2 P1 O B
reflect P3 P2 O C
reflect X1 X O A
reflect X2 X1 O B
reflect X3 X2 O C
midpoint M P P3
midpoint N X X3
prove { collinear O M N }
