% The orthocenters of the four triangles of a cyclic quadrilateral make a quadrilateral that is congruent to it (Jakob
% Steiner, 1827): the segment between two of them is equal and parallel to a side.
point O
point A
oncircle B O A
oncircle C O A
oncircle D O A
orthocenter H A B C
orthocenter L D B C
translate U A H D
prove { identical U L }
