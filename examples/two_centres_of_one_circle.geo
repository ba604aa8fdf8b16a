% The perpendicular bisectors of two sides of a triangle meet at P, which is the circumcenter O again; so the circles
% around O and P through A have no second common point. Impossible.
point O
point A
oncircle B O A
oncircle C O A
med m A B
med n B C
intersec P m n
cc X P O A
prove { same_length X B O A }
