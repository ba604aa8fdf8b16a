% The Euler line (Leonhard Euler, 18th century), second part: the point H on it with OH = 3 OG is the orthocenter, for
% circumcenter O and centroid G.
point A
point B
point C
circumcenter O A B C
centroid G A B C
lratio H O G 3
prove { perpendicular A H B C }
