% The perpendicular bisector of the bisector AD of a triangle meets the line BC at X, and XA is a tangent of the
% circumcircle (X is the centre of a circle of Apollonius): XA^2 = XB XC. V and W are at equal distances from A on the
% sides AB and AC.
point A
point U
param r
tratio V U A r
symmetric W V U
param p
param k
lratio B A V p
lratio C A W k
inter D B C A U
med m A D
line a B C
intersec X m a
prove { equal { pythagoras_difference3 X A X } { pythagoras_difference3 B X C } }
