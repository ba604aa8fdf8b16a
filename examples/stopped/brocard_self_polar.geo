% The intersections of the opposite sides and of the diagonals of a cyclic quadrilateral make a triangle whose
% orthocenter is the centre of the circle (Henri Brocard, 19th century).
point O
point A
oncircle B O A
oncircle C O A
oncircle D O A
inter P A C B D
inter E A B C D
inter F A D B C
prove { perpendicular O P E F }
