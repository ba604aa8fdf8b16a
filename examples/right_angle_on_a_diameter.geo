% Where the midpoint of a side of a triangle is as far from the opposite corner as from the two ends, the angle there
% is right (the converse of Thales' theorem; Euclid, Elements III.31). The point C is made with CM = MA as the
% reflection of A in a line through M.
point A
point B
midpoint M A B
point U
reflect C A M U
prove { perpendicular A C C B }
