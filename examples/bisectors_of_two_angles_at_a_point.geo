% The bisectors of two angles that make a straight angle together are perpendicular (classical). AU bisects the angle
% of AV and AW, and X is on the line AW beyond A, as far from A as V. The midpoint M of VX is on the other bisector.
point A
point U
point V
reflect W V A U
symmetric X W A
midpoint M V X
prove { perpendicular A U A M }
