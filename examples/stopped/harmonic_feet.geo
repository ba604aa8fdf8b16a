% Lines through a point P from the corners of a triangle meet the sides at D, E and F. The line EF meets the side BC
% at the fourth harmonic point of B, C and D (Pappus of Alexandria; Philippe de La Hire, 1685).
point A
point B
point C
point P
inter D A P B C
inter E B P C A
inter F C P A B
inter X E F B C
prove { harmonic B C D X }
