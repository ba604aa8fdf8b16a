% The sides of the orthic triangle are perpendicular to the radii of the circumcircle to the corners (Christian
% Heinrich von Nagel, 19th century).
point A
point B
point C
circumcenter O A B C
foot E B C A
foot F C A B
prove { perpendicular E F O A }
