% The orthocenter of the triangle of the midpoints is the circumcenter of the first triangle (classical). Here: the
% altitudes of the triangle of the midpoints, drawn as lines, meet at a point with equal distances from A and B.
point A
point B
point C
midpoint D B C
midpoint E C A
midpoint F A B
line d E F
line e F D
perp p D d
perp q E e
intersec O p q
prove { same_length O A O B }
