% In a triangle with a right angle at C the bisector of this angle bisects the angle of the median CM and the altitude
% CD too (classical): the reflection of M in the bisector is on CD. The bisector goes through the midpoint U of A and
% the point A1 of CB with CA1 = CA.
point C
point A
param r
tratio B C A r
midpoint M A B
foot D C A B
tratio A1 C A 1
midpoint U A A1
reflect N M C U
prove { collinear C D N }
