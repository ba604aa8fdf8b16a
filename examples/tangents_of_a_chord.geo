% The tangents at the ends of a chord meet on the line of the midpoint of the chord and the centre (classical).
point O
point A
oncircle B O A
line a O A
line b O B
perp p A a
perp q B b
intersec T p q
midpoint M A B
prove { collinear O M T }
