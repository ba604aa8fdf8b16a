% Two circles that meet on a side (International Mathematical Olympiad 2004, problem 1): the circle with the diameter
% BC meets the sides AB and AC of a triangle at M and N; O is the midpoint of BC. The bisectors of the angles BAC and
% MON meet at R. The circles around BMR and CNR have a common point on BC: the point L of the bisector, for AM AB = AR
% AL, and likewise on the other side. V and W are at equal distances from A on the sides; OM = ON, so the bisector of
% MON is the perpendicular bisector of MN.
point A
point U
param r
tratio V U A r
symmetric W V U
param p
param k
lratio B A V p
lratio C A W k
foot M C A B
foot N B A C
med m M N
line a A U
intersec R m a
inter L A U B C
prove { equal { pythagoras_difference3 M A B } { pythagoras_difference3 R A L } }
