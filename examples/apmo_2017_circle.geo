% A circle through the midpoint of a side (Asian Pacific Mathematics Olympiad 2017, problem 2): the bisector of the
% angle at A of a triangle meets the circumcircle again at D. The perpendicular bisector of AC meets the bisector of
% the outer angle at A in Z. The circle around ADZ passes through the midpoint of AB. C is the reflection of B in OD.
point O
point D
oncircle A O D
oncircle B O D
reflect C B O D
med m A C
line d A D
perp e A d
intersec Z e m
midpoint M A B
prove { concyclic A D Z M }
