% The line through the midpoints of the diagonals of a quadrilateral does not pass through the intersection of the
% diagonals. False. Counterexample: A = (0, 0), B = (4, 0), C = (4, 4), D = (0, 2): the diagonals meet at (4/3, 4/3),
% their midpoints are (2, 2) and (2, 1).
point A
point B
point C
point D
inter P A C B D
midpoint M A C
midpoint N B D
prove { collinear M N P }
