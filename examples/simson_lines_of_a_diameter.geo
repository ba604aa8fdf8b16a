% The Simson lines of two opposite points P and R of the circumcircle are perpendicular (classical). The Simson line
% of P has its foot X on BC and the midpoint M of P and the orthocenter H; that of R likewise. H is made by vectors
% from the circumcenter O.
point O
point A
oncircle B O A
oncircle C O A
oncircle P O A
symmetric R P O
translate K O A B
translate H O K C
foot X P B C
foot U R B C
midpoint M P H
midpoint N R H
prove { perpendicular X M U N }
