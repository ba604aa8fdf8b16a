% proved: the diagonals of a parallelogram halve each other
point A
point B
point C
translate D B A C
inter P A C B D
prove { midpoint P A C }
