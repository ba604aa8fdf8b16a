% proved: the meeting point of two altitudes is on the line from A to the foot D of its altitude
point A
point B
point C
line a B C
line b C A
perp p A a
perp q B b
intersec H p q
foot D A B C
prove { collinear A D H }
