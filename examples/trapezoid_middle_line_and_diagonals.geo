% The middle line of a trapezoid passes through the midpoints of the diagonals, and not through their intersection.
% False. Counterexample: A = (0, 0), B = (4, 0), C = (2, 2), D = (0, 2): the middle line has the height 1, the
% diagonals meet at the height 4/3.
point A
point B
point D
param r
pratio C D A B r
midpoint M A D
midpoint N B C
inter P A C B D
prove { collinear M N P }
