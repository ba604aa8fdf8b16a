% The Steiner line (Jakob Steiner, 19th century): the reflections of a point P of the circumcircle in the sides of a
% triangle are on one line with the orthocenter.
point O
point A
oncircle B O A
oncircle C O A
oncircle P O A
translate K O A B
translate H O K C
reflect X P B C
reflect Y P C A
prove { collinear X Y H }
