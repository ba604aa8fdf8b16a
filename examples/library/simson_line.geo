% The Simson line (named after Robert Simson; William Wallace, 1799): the feet of the perpendiculars from a point of
% the circumcircle to the sides of a triangle are on one line.
point O
point A
oncircle B O A
oncircle C O A
oncircle P O A
foot X P B C
foot Y P C A
foot Z P A B
prove { collinear X Y Z }
