% A touching circle and the centroid (shortlist of the International Mathematical Olympiad 2011, G4): M and N are the
% midpoints of the sides AB and AC of a triangle; D is the foot of the altitude from A, and G is the centroid. A
% circle through M and N touches the circumcircle at X, other than A. Then D, G and X are on one line. The tangents at
% A and X meet at a point W of MN, by the power of W, so X is the reflection of A in OW.
point O
point A
oncircle B O A
oncircle C O A
midpoint M A B
midpoint N A C
tratio T A O 1
inter W A T M N
reflect X A O W
foot D A B C
centroid G A B C
prove { collinear D G X }
