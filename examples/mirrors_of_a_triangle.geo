% Reflections in the three sides of a triangle one after another make a glide reflection, whose axis passes through
% the feet of two altitudes (classical). The midpoint of a point and its image is on the axis.
point A
point B
point C
point P
reflect Q P A B
reflect R Q B C
reflect S R C A
midpoint M P S
foot E B C A
foot F C A B
prove { collinear M E F }
