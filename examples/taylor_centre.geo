% D, E and F are the feet of the altitudes of a triangle. The perpendiculars from the midpoints of EF, FD and DE to
% the sides BC, CA and AB meet in one point, the centre of the Taylor circle (Henry Martyn Taylor, 1882).
point A
point B
point C
foot D A B C
foot E B C A
foot F C A B
midpoint X E F
midpoint Y F D
midpoint Z D E
line a B C
line b C A
perp p X a
perp q Y b
intersec S p q
prove { perpendicular S Z A B }
