% The inner and the outer centre of similitude of two circles divide the segment of their centres M and N harmonically
% (classical). The radii are a and b.
point M
point N
param a
param b
lratio I M N div { a } { sum { a } { b } }
lratio E M N div { a } { sub { a } { b } }
prove { harmonic M N I E }
