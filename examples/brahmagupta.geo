% Brahmagupta's theorem (7th century): where the diagonals of a cyclic quadrilateral ABCD are perpendicular and meet
% at P, the line from P to the midpoint of AD is perpendicular to BC.
point P
point A
param r
tratio B P A r
online C P A
circumcenter O A B C
second D B P O
midpoint M A D
prove { perpendicular P M B C }
