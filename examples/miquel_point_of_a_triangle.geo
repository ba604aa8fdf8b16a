% Miquel's theorem (Auguste Miquel, 1838): for points D, E, F of the sides of a triangle the circles AEF, BFD and CDE
% meet in one point. Such a point M is seen from D, E and F under one angle with the sides; conversely, where ME and
% MF make one angle, with the tangent r, with the perpendiculars MY and MZ to two sides, M is on the circle AEF.
point M
point Y
point Z
param r
tratio E Y M r
tratio F Z M r
tratio Y1 Y M 1
tratio Z1 Z M 1
inter A Y Y1 Z Z1
prove { concyclic A E F M }
