% proved: AB = AC
point B
point C
midpoint M B C
param h
tratio A M C h
prove { same_length A B A C }
