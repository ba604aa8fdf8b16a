% Lines through one point from the corners of a triangle meet the sides at D, E and F. The line EF meets the side BC
% at the fourth harmonic point of B, C and D (Pappus of Alexandria; Philippe de La Hire, 1685). The feet have the
% weights u, v and w.
point A
point B
point C
param u
param v
param w
lratio D B C div { w } { sum { v } { w } }
lratio E C A div { u } { sum { u } { w } }
lratio F A B div { v } { sum { u } { v } }
inter X B C E F
prove { harmonic B C D X }
