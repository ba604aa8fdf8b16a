% The diagonals of a parallelogram bisect one another (classical).
point A
point B
point C
translate D B C A
midpoint M A C
prove { midpoint M B D }
