% The inverse of a rectangular hyperbola in its centre is a lemniscate (Jakob Bernoulli, 1694): the distances of its
% points from two fixed points G and K have the product OG^2. A is the point t OE + 1/2t OF of the hyperbola, for a
% square with the sides OE and OF, the circle of inversion has the radius OE, and G is the midpoint of EF.
point O
point E
tratio F O E 1
param t
lratio U O E t
pratio A U O F div { 1 } { mult { 2 } { t } }
inverse X A O E
midpoint G E F
symmetric K G O
prove { equal { mult { pythagoras_difference3 G X G } { pythagoras_difference3 K X K } }
              { mult { pythagoras_difference3 O G O } { pythagoras_difference3 O G O } } }
