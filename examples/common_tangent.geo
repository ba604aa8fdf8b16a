% Two circles touch a line at T and U and meet at P. The line of their second common point and P bisects the segment
% TU (classical): so the line from P to the midpoint M of TU is perpendicular to the line of the centres O and V,
% which are on perpendiculars to the tangent at T and U.
point T
point U
point P
midpoint M T U
line l T U
perp a T l
perp b U l
med c T P
med d U P
intersec O a c
intersec V b d
prove { perpendicular P M O V }
