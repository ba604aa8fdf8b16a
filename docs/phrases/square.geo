% proved: the diagonals of a square are perpendicular
point A
point B
tratio D A B 1
translate C A B D
prove { perpendicular A C B D }
