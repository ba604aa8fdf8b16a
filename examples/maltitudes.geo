% The maltitudes of a cyclic quadrilateral meet in one point: those are the lines through the midpoint of a side that
% are perpendicular to the opposite side (classical).
point O
point A
oncircle B O A
oncircle C O A
oncircle D O A
midpoint K A B
midpoint M C D
midpoint G K M
symmetric T O G
prove { perpendicular K T C D }
