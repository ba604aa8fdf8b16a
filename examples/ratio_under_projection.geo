% A projection from a point keeps the cross-ratio of four points of a line, and not the ratio of three. False.
% Counterexample: S = (0, 0), A = A1 = (0, 1), B = (1, 0), B1 = (2, 0), and the midpoint C of AB, with the image (2/3,
% 2/3).
point S
point A
point B
param r
lratio C A B r
online A1 S A
online B1 S B
inter C1 S C A1 B1
prove { equal { sratio A1 C1 A1 B1 } { r } }
