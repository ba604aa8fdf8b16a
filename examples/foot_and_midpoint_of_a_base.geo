% In an isosceles triangle the foot of the altitude is the midpoint of the base, so there is no line through the two.
% Impossible.
point B
point C
midpoint M B C
param r
tratio A M B r
foot F A B C
online X M F
prove { collinear A M X }
