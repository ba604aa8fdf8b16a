% Incenter and excenter on a bisector AD divide AD harmonically (classical). The points have the weights a, b, c and
% -a, b, c, for any numbers a, b, c.
point A
point B
point C
param a
param b
param c
lratio D B C div { c } { sum { b } { c } }
lratio I A D div { sum { b } { c } } { sum { sum { a } { b } } { c } }
lratio J A D div { sum { b } { c } } { sub { sum { b } { c } } { a } }
prove { harmonic A D I J }
