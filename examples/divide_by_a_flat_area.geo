% The feet of a point of the circumcircle on the sides of a triangle are on one line, the Simson line, so nothing can
% be divided by the area of their triangle. Impossible.
point O
point A
oncircle B O A
oncircle C O A
oncircle P O A
foot X P B C
foot Y P C A
foot Z P A B
lratio U O A div { 1 } { signed_area3 X Y Z }
prove { collinear O A U }
