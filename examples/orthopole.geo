% The orthopole (19th century): D, E and F are the feet of the perpendiculars from the corners of a triangle to a line
% UV. The perpendiculars from D, E and F to the opposite sides meet in one point.
point A
point B
point C
point U
point V
line l U V
line a B C
line b C A
foot D A U V
foot E B U V
foot F C U V
perp p D a
perp q E b
intersec X p q
prove { perpendicular X F A B }
