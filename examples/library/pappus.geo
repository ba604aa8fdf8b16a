% Pappus' hexagon theorem (Pappus of Alexandria, 4th century): six points, three on each of two lines; opposite
% sides of the hexagon A Q C P B R meet in three points of one line.
point A
point B
point P
point Q
online C A B
online R P Q
inter X A Q P B
inter Y A R P C
inter Z B R Q C
prove { collinear X Y Z }
