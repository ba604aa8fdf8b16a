% Inversion does not take the midpoint of two points of a ray to the midpoint of their images. False. Counterexample:
% O = (0, 0), A = (1, 0), B = (3, 0) in the circle with the radius 1: the images of A, M and B are at 1, 1/2 and 1/3.
point O
point A
param r
lratio B O A r
midpoint M A B
inverse B1 B O A
inverse M1 M O A
prove { midpoint M1 A B1 }
