% Reim's theorem (named after Anton Reim): two circles around L and M meet at P and Q; a line through P meets them at A
% and B, one through Q at C and D. Then AC and BD are parallel.
point P
point Q
midpoint N P Q % LM is perpendicular to PQ at N
param u
param v
tratio L N P u
tratio M N P v
point U
point V
second A P U L
second B P U M
second C Q V L
second D Q V M
prove { parallel A C B D }
