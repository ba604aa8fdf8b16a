% The diagonals of a parallelogram cut it into four triangles of the same area; those of a trapezoid do not. False.
% Counterexample: A = (0, 0), B = (4, 0), C = (2, 2), D = (0, 2): the diagonals meet at P = (4/3, 4/3), and PAB has
% the area 8/3, PCD has 2/3.
point A
point B
point D
param r
pratio C D A B r
inter P A C B D
prove { equal { signed_area3 P A B } { signed_area3 P C D } }
