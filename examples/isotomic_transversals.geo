% Isotomic lines (Gaston de Longchamps, 1866): a line meets the sides of a triangle at D, E and F. The points D1, E1,
% F1 that are their reflections in the midpoints of the sides are on one line too.
point A
point B
point C
online D B C
online E C A
inter F A B D E
translate D1 D B C
translate E1 E C A
translate F1 F A B
prove { collinear D1 E1 F1 }
