% The reflections of the foot D of an altitude in the other two sides of a triangle are on the line of the feet E and
% F of the other two altitudes (Giovanni Fagnano, 1775; Hermann Amandus Schwarz).
point A
point B
point C
foot D A B C
foot E B C A
foot F C A B
reflect X D A B
prove { collinear X E F }
