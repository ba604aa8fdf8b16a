% Euclid, Elements I.5 and I.12: in an isosceles triangle the foot of the altitude is the midpoint of the base.
point B
point C
midpoint M B C
param r
tratio A M B r
foot F A B C
prove { identical F M }
