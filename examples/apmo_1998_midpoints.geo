% A line through the foot of an altitude (Asian Pacific Mathematics Olympiad 1998, problem 4): D is the foot of the
% altitude from A of a triangle. A line through D has the points E and F, other than D, with AE perpendicular to BE
% and AF to CF: its second points on the circles with the diameters AB and AC. M and N are the midpoints of BC and EF.
% Then AN is perpendicular to NM. DB and DC are b and c times DA.
point D
point A
param b
param c
tratio B D A b
tratio C D A c
midpoint P A B
midpoint Q A C
point U
second E D U P
second F D U Q
midpoint M B C
midpoint N E F
prove { perpendicular A N N M }
