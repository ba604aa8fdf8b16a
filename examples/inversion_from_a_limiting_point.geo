% The circles of Apollonius of two points P and Q are taken by inversion with the centre P to circles around one
% point, the image Q1 of Q (19th century). C and D divide PQ inside and outside in one ratio; the circle with the
% diameter CD has the point X, and the images of C and X are equally far from Q1.
point P
point Q
param r
lratio C P Q div { r } { sum { r } { 1 } }
lratio D P Q div { r } { sub { r } { 1 } }
midpoint M C D
oncircle X M C
point R
inverse Q1 Q P R
inverse C1 C P R
inverse X1 X P R
prove { same_length Q1 C1 Q1 X1 }
