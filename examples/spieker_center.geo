% The Spieker center (Theodor Spieker, 19th century), the incenter of the medial triangle, is the midpoint of incenter
% and Nagel point. The points have the weights a, b, c and b + c - a, c + a - b, a + b - c, for any numbers a, b, c.
point A
point B
point C
param a
param b
param c
lratio D B C div { c } { sum { b } { c } }
lratio I A D div { sum { b } { c } } { sum { sum { a } { b } } { c } }
lratio E B C div { sub { sum { a } { b } } { c } } { mult { 2 } { a } }
lratio N A E div { mult { 2 } { a } } { sum { sum { a } { b } } { c } }
midpoint A1 B C
midpoint B1 C A
midpoint C1 A B
lratio F B1 C1 div { c } { sum { b } { c } }
lratio S A1 F div { sum { b } { c } } { sum { sum { a } { b } } { c } }
prove { midpoint S I N }
