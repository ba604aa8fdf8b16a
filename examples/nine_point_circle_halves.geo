% The nine-point circle bisects each segment from the orthocenter to a point of the circumcircle (classical). The
% orthocenter H is made from the circumcenter O by vectors, N is the midpoint of OH and the centre of the nine-point
% circle, whose radius is half of OA.
point O
point A
oncircle B O A
oncircle C O A
oncircle X O A
translate K O A B
translate H O K C
midpoint N O H
midpoint Y H X
prove { equal { mult { 4 } { pythagoras_difference3 N Y N } } { pythagoras_difference3 O A O } }
