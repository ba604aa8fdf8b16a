% Half-turns about the midpoints of the four sides of a quadrilateral, one after another, bring each point back
% (classical).
point A
point B
point C
point D
point P
midpoint K A B
midpoint L B C
midpoint M C D
midpoint N D A
symmetric Q P K
symmetric R Q L
symmetric S R M
symmetric T S N
prove { identical T P }
