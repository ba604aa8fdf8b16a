% Sylvester's theorem (James Joseph Sylvester, 19th century): from the circumcenter the vectors to the three corners
% add up to that to the orthocenter.
point A
point B
point C
circumcenter O A B C
translate K O A B
translate H O K C
prove { perpendicular A H B C }
