% Brahmagupta's theorem where the quadrilateral has perpendicular diagonals but need not be cyclic. False.
% Counterexample: P = (0, 0), A = (1, 0), B = (0, 1), C = (-1, 0), D = (0, -2): the line from P to the midpoint (1/2,
% -1) of AD is not perpendicular to BC.
point P
point A
param r
tratio B P A r
online C P A
online D B P
midpoint M A D
prove { perpendicular P M B C }
