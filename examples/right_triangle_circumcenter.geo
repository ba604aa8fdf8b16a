% The perpendicular bisectors of the legs of a right triangle meet in the midpoint of the hypotenuse (Euclid, Elements
% IV.5, corollary).
point C
point A
param r
tratio B C A r
med a B C
med b C A
intersec O a b
prove { midpoint O A B }
