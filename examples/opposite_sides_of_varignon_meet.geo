% Opposite sides of the parallelogram of Varignon's theorem do not meet. Impossible.
point A
point B
point C
point D
midpoint K A B
midpoint L B C
midpoint M C D
midpoint N D A
inter X K L M N
prove { collinear A C X }
