% The sides AB, CD, EF of a hexagon pass through one point P and the sides BC, DE, FA through another point Q. Then
% the diagonals AD, BE and CF meet in one point (the dual of Pappus' theorem; 19th century).
point P
point Q
point A
online B P A
online C Q B
online D P C
online E Q D
inter F P E Q A
inter X A D B E
prove { collinear C F X }
