% The line from the centre of a circle to the midpoint of a chord is perpendicular to the chord (Euclid, Elements
% III.3).
point O
point A
oncircle B O A
midpoint M A B
prove { perpendicular O M A B }
