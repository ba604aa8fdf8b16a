% The orthocenter, reflected in a side of a triangle, is on the circumcircle (classical): the altitude from A meets BC at D
% and the circumcircle again at X, and the reflection H of X in D is the orthocenter.
point A
point B
point C
circumcenter O A B C
foot D A B C
second X A D O
symmetric H X D
prove { perpendicular B H C A }
