% The Simson line of a point P of the circumcircle bisects the segment from P to the orthocenter (19th century). The
% orthocenter is made by vectors from the circumcenter O.
point O
point A
oncircle B O A
oncircle C O A
oncircle P O A
translate K O A B
translate H O K C
midpoint M P H
foot X P B C
foot Y P C A
prove { collinear X Y M }
