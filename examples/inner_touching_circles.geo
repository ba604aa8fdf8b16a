% Two circles touch inside at T. A chord of the larger one touches the smaller one at C. The line TC meets the larger
% circle at the midpoint of the chord's arc, so OM is perpendicular to the chord (classical). I is the centre of the
% smaller circle.
point O
point T
param r
lratio I O T r
oncircle C I T
second M T C O
tratio X C I 1 % the chord is on CX
prove { perpendicular O M C X }
