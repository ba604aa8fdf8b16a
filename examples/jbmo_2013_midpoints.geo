% Three midpoints on a line (Junior Balkan Mathematical Olympiad 2013, problem 2): D is the point of the side BC of a
% triangle with the circumcenter O for which the angles BAD and CAO are equal: the foot of the altitude. AD meets the
% circumcircle again at E. The midpoints of BE, OD and AC are on one line.
point O
point A
oncircle B O A
oncircle C O A
foot D A B C
second E A D O
midpoint M B E
midpoint N O D
midpoint P A C
prove { collinear M N P }
