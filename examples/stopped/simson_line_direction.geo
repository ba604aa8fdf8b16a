% The perpendicular from a point P of the circumcircle to the side BC meets the circle again at U; the line AU is
% parallel to the Simson line of P (Jakob Steiner, 19th century).
point O
point A
oncircle B O A
oncircle C O A
oncircle P O A
foot X P B C
foot Y P A B
second U P X O
prove { parallel A U X Y }
