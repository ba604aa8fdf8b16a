% A point P is not on the side BC. Then A has a weight other than 0, and the weights r and s of B and C do not add up to
% 1. False. Counterexample: A = (0, 0), B = (3, 0), C = (0, 3), r = s = 1/3: P is the centroid (1, 1), and r + s is 2/3.
point A
point B
point C
param r
param s
weights P A B C r s
assume not_collinear P B C
prove { equal { sum { r } { s } } { 1 } }
