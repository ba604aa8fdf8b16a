% proved: the diagonals of a rectangle are equally long
point A
point B
param h
tratio D A B h
translate C A B D
prove { same_length A C B D }
