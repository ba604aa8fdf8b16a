% A spiral similarity about O takes A to C and B to D. Where AB meets CD, at X, there is a circle through O, A, C and
% X (classical). OC is r times OA and s times OA turned by a quarter.
point O
point A
point B
param r
param s
lratio K O A r
tratio L O A s
translate C O K L
lratio M O B r
tratio N O B s
translate D O M N
inter X A B C D
prove { concyclic O A C X }
