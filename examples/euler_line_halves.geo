% On the Euler line the centroid is at one third from the circumcenter, and not half-way. False. Counterexample: A =
% (0, 0), B = (2, 0), C = (0, 4), a right triangle, whose orthocenter is A; O = (1, 2) and G = (2/3, 4/3) give H =
% (1/3, 2/3).
point A
point B
point C
circumcenter O A B C
centroid G A B C
lratio H O G 2
prove { perpendicular A H B C }
