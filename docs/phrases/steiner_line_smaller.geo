% proved: the line through the reflections of a point of the circumcircle goes through the orthocenter
point O
point A
oncircle B O A
oncircle C O A
oncircle M O A
orthocenter H A B C
reflect X M A B
reflect Y M A C
prove { collinear X Y H }
