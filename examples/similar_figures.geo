% The midpoints of corresponding points of two directly similar figures make a similar figure (the fundamental theorem
% of similar figures; classical). C has the place r + s J over AB, as C1 over A1 B1.
point A
point B
point A1
point B1
param r
param s
lratio K A B r
tratio L A B s
translate C A K L
lratio K1 A1 B1 r
tratio L1 A1 B1 s
translate C1 A1 K1 L1
midpoint X A A1
midpoint Y B B1
midpoint Z C C1
lratio M X Y r
tratio N X Y s
translate W X M N
prove { identical W Z }
