% In Pappus' theorem opposite sides of the hexagon meet on a line; here one pair has sides that are not opposite: AQ
% and RC in place of AQ and PB. False. Counterexample: A = (0, 0), B = (1, 0), C = (3, 0), P = (0, 1), Q = (2, 1), R =
% (4, 1): X = (6, 3), Y = (12/7, 3/7), Z = (5/2, 1/2).
point A
point B
point P
point Q
online C A B
online R P Q
inter X A Q R C
inter Y A R P C
inter Z B R Q C
prove { collinear X Y Z }
