% The perpendicular bisectors of a triangle meet in one point, which has the same distance from all three corners
% (Euclid, Elements IV.5).
point A
point B
point C
med a B C
med b C A
intersec O a b
prove { same_length O A O B }
