% The midpoints of the segments from the orthocenter to the corners, the Euler points, are on the circle through the
% midpoints of the sides (Brianchon and Poncelet, 1821). Here: the angle between an Euler point, the midpoint of AB
% and that of BC is right, with the orthocenter H as a free point and C made from it.
point A
point B
point H
tratio T H B 1 % AC is perpendicular to HB
translate U H T A
foot F H A B
inter C H F A U
midpoint N A H
midpoint M A B
midpoint L B C
prove { perpendicular N M M L }
