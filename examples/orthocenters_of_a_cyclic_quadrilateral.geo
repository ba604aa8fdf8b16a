% The orthocenters of the four triangles of a cyclic quadrilateral make a quadrilateral that is congruent to it (Jakob
% Steiner, 1827): H is the orthocenter of ABC, by vectors from the centre O; the fourth corner L of the parallelogram
% ADLH is the orthocenter of DBC. Here: BL is perpendicular to CD.
point O
point A
oncircle B O A
oncircle C O A
oncircle D O A
translate K O A B
translate H O K C
translate L A H D
prove { perpendicular B L C D }
