% The bisector of an angle of a triangle divides the opposite side in the ratio of the other sides, and halves it only
% where these are equal. False. V and W are at equal distances from A on the sides. Counterexample: A = (0, 0), B =
% (1, -1), C = (2, 2): the bisector meets BC at (4/3, 0), and the midpoint is (3/2, 1/2).
point A
point U
param r
tratio V U A r
symmetric W V U
param p
param k
lratio B A V p
lratio C A W k
inter D B C A U
prove { midpoint D B C }
