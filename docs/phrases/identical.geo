% proved: the midpoints of the diagonals of a parallelogram are one point
point A
point B
point C
translate D B A C
midpoint X A C
midpoint Y B D
prove { identical X Y }
