% The segments between the midpoints of opposite sides of a quadrilateral, and that between the midpoints of its
% diagonals, bisect one another (classical).
point A
point B
point C
point D
midpoint K A B
midpoint L B C
midpoint M C D
midpoint N D A
midpoint P A C
midpoint Q B D
midpoint U K M
prove { midpoint U P Q }
