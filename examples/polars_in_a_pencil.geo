% The polars of a point P in all circles through two points A and B meet in one point Q (Jean-Victor Poncelet, 1822).
% Here three such circles, with the centres L, M and N.
point A
point B
midpoint K A B
param u
param v
param w
tratio L K A u
tratio M K A v
tratio N K A w
point P
inverse U P L A
inverse V P M A
inverse W P N A
tratio U1 U L 1 % U U1 is the polar of P in the first circle
tratio V1 V M 1
inter Q U U1 V V1
prove { perpendicular W Q N P }
