% Where C and D divide AB harmonically, A and B divide CD so, but A and C do not divide BD so. False. Counterexample:
% A = (0, 0), B = (3, 0), C = (2, 0), D = (6, 0): AB/BC is -3, and AD/CD is 3/2.
point A
point B
param r
lratio C A B div { r } { sum { r } { 1 } }
lratio D A B div { r } { sub { r } { 1 } }
prove { harmonic A C B D }
