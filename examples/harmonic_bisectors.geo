% The two bisectors of an angle of a triangle divide the opposite side harmonically (Apollonius of Perga, after
% Pappus). V and W are at equal distances from A on the sides.
point A
point U
param r
tratio V U A r
symmetric W V U
param p
param k
lratio B A V p
lratio C A W k
inter D B C A U
tratio T A U 1
inter E B C A T
prove { harmonic B C D E }
