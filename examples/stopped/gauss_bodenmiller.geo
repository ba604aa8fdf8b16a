% The line of the orthocenters of four lines is perpendicular to the line of the midpoints of the diagonals (the
% Gauss-Bodenmiller theorem; 19th century).
point A
point B
point C
online D B C
online E C A
inter F A B D E
orthocenter H A B C
orthocenter K C D E
midpoint M A D
midpoint N B E
prove { perpendicular H K M N }
