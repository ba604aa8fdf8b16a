% Three Pappus lines through one point (Jakob Steiner, 1832): three points of one line and three of another have six
% Pappus lines, one for each way to pair them. Those of the three pairings that go over into one another by cyclic
% exchange meet in one point.
point A
point B
online C A B
point P
point Q
online R P Q
inter X A Q B P
inter Y A R C P
inter X1 A R B Q
inter Y1 A P C Q
inter X2 A P B R
inter Y2 A Q C R
inter T X Y X1 Y1
prove { collinear X2 Y2 T }
