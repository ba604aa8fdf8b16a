% Inversion takes a circle that cuts the circle of inversion at right angles to itself (19th century). The circle has
% the centre M, and R is a common point.
point O
point R
param s
tratio M R O s
oncircle A M R
inverse B A O R
prove { same_length M B M R }
