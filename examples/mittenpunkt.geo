% The Mittenpunkt (Christian Heinrich von Nagel, 1836): the lines from the excenters of a triangle to the midpoints of
% the sides meet in one point. The excenters have the weights -a, b, c; a, -b, c and a, b, -c, for any numbers a, b,
% c.
point A
point B
point C
param a
param b
param c
weights J A B C div { b } { sub { sum { b } { c } } { a } } div { c } { sub { sum { b } { c } } { a } }
weights K A B C div { neg { b } } { sub { sum { c } { a } } { b } } div { c } { sub { sum { c } { a } } { b } }
weights L A B C div { b } { sub { sum { a } { b } } { c } } div { neg { c } } { sub { sum { a } { b } } { c } }
midpoint D B C
midpoint E C A
midpoint F A B
inter M D J E K
prove { collinear F L M }
