% The common chord of two circles passes through the midpoint of the centres only where the circles are equal. False.
% Counterexample: the circles around O = (0, 0) and P = (3, 0) through A = (3, 4) meet again at Q = (3, -4); the
% midpoint is (3/2, 0).
point O
point P
point A
cc Q O P A
midpoint M O P
prove { collinear A Q M }
