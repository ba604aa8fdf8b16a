% Two circles touch at T. Two lines through T meet them at A, B and at C, D; the chords AC and BD are parallel and
% have no intersection. Impossible.
point O
point T
param r
lratio P O T r
oncircle A O T
oncircle C O T
second B T A P
second D T C P
inter X A C B D
prove { collinear O P X }
