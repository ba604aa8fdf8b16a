% A circle through two midpoints (shortlist of the International Mathematical Olympiad 2009, G4): the diagonals of a
% cyclic quadrilateral ABCD meet at E, and the lines AD and BC at F; G and H are the midpoints of AB and CD. The line
% EF touches the circle around EGH at E. The figure begins with E, A and B; EC is r EA, and EA EC = EB ED.
point E
point A
point B
param r
lratio C E A r
lratio D E B div { mult { r } { pythagoras_difference3 E A E } } { pythagoras_difference3 E B E }
inter F A D B C
midpoint G A B
midpoint H C D
circumcenter Q E G H
prove { perpendicular E F E Q }
