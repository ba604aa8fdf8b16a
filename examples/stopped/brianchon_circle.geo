% Brianchon's theorem (Charles Julien Brianchon, 1806) for a circle: the three diagonals of a hexagon of tangents meet
% in one point.
point O
point P
oncircle Q O P
oncircle R O P
oncircle S O P
oncircle T O P
oncircle U O P
tratio P1 P O 1
tratio Q1 Q O 1
tratio R1 R O 1
tratio S1 S O 1
tratio T1 T O 1
tratio U1 U O 1
inter A P P1 Q Q1
inter B Q Q1 R R1
inter C R R1 S S1
inter D S S1 T T1
inter E T T1 U U1
inter F U U1 P P1
inter X A D B E
prove { collinear C F X }
