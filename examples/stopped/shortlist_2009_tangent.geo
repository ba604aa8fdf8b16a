% A circle through two midpoints (shortlist of the International Mathematical Olympiad 2009, G4): the diagonals of a
% cyclic quadrilateral ABCD meet at E, and the lines AD and BC at F; G and H are the midpoints of AB and CD. The line
% EF touches the circle around EGH at E.
point O
point A
oncircle B O A
oncircle C O A
oncircle D O A
inter E A C B D
inter F A D B C
midpoint G A B
midpoint H C D
circumcenter Q E G H
prove { perpendicular E F E Q }
