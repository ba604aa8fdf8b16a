% In a quadrilateral around a circle the diagonals and the two chords between opposite points of contact meet in one
% point (Isaac Newton, 17th century). Here: the diagonal AC passes through the intersection of the chords.
point I
point P
oncircle Q I P
oncircle R I P
oncircle S I P
tratio P1 P I 1
tratio Q1 Q I 1
tratio R1 R I 1
tratio S1 S I 1
inter A P P1 S S1
inter C Q Q1 R R1
inter X P R Q S
prove { collinear A C X }
