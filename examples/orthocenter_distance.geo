% The distance from a corner of a triangle to the orthocenter is twice that from the circumcenter to the opposite side
% (classical): go from A twice as far as from the circumcenter O to the midpoint M of BC; this point H is the orthocenter.
point A
point B
point C
circumcenter O A B C
midpoint M B C
translate K O M A
translate H O M K
prove { perpendicular B H C A }
