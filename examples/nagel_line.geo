% The Nagel line (Christian Heinrich von Nagel, 1836): incenter, centroid and Nagel point are on one line. The
% incenter has the weights a, b, c and the Nagel point b + c - a, c + a - b, a + b - c; the theorem holds for any
% numbers a, b, c.
point A
point B
point C
param a
param b
param c
lratio D B C div { c } { sum { b } { c } }
lratio I A D div { sum { b } { c } } { sum { sum { a } { b } } { c } }
lratio E B C div { sub { sum { a } { b } } { c } } { mult { 2 } { a } }
lratio N A E div { mult { 2 } { a } } { sum { sum { a } { b } } { c } }
centroid G A B C
prove { collinear I G N }
