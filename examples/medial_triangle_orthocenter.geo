% The orthocenter of the triangle of the midpoints is the circumcenter of the whole, and not its orthocenter. False.
% Counterexample: A = (0, 0), B = (4, 0), C = (2, 6): H = (2, 2/3), and DH has not the direction of the altitude from
% D = (3, 3).
point A
point B
point C
midpoint D B C
midpoint E C A
midpoint F A B
orthocenter H A B C
prove { perpendicular D H E F }
