% The perpendicular bisectors of the sides of a triangle meet in one point, so there is no line through two of their
% intersections. Impossible.
point A
point B
point C
med a B C
med b C A
med c A B
intersec O a b
intersec P b c
line l O P
intersec X l a
prove { same_length X B X C }
