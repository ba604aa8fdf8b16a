% The Simson lines of two opposite points of the circumcircle are perpendicular (classical).
point O
point A
oncircle B O A
oncircle C O A
oncircle P O A
symmetric R P O
foot X P B C
foot Y P C A
foot U R B C
foot V R C A
prove { perpendicular X Y U V }
