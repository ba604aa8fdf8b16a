% The points E and F on two neighbouring sides BC and CD of a square ABCD have equal distances from B and C: AE and BF
% are perpendicular (classical).
point A
point B
tratio D A B 1
translate C A B D
param r
lratio E B C r
lratio F C D r
prove { perpendicular A E B F }
