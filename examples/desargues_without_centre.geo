% Two triangles whose lines of corresponding corners do not meet in one point have no axis. False. Counterexample: A =
% (0, 0), B = (2, 0), C = (0, 2) and (3, 3), (5, 4), (4, 6): X = (12, -10), Y = (0, -6), Z = (-3, 0).
point A
point B
point C
point A1
point B1
point C1
inter X B C B1 C1
inter Y C A C1 A1
inter Z A B A1 B1
prove { collinear X Y Z }
