% Three circles through the orthocenter (International Mathematical Olympiad 2008, problem 1): the circles through the
% orthocenter H around the midpoints of the sides of a triangle meet the sides in six points of one circle: its centre
% is the circumcenter O, for OM^2 + MH^2, which is the square of the distance from O to the two points of BC, is the
% same for the midpoints M and N of BC and CA. H is made from O by vectors.
point O
point A
oncircle B O A
oncircle C O A
translate K O B A
translate H O C K
midpoint M B C
midpoint N C A
prove { equal { sum { pythagoras_difference3 O M O } { pythagoras_difference3 M H M } }
              { sum { pythagoras_difference3 O N O } { pythagoras_difference3 N H N } } }
