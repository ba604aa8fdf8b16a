% proved: the midpoint of the longest side is equally far from the corners
point A
point B
param h
tratio C A B h
midpoint M B C
prove { same_length M A M B }
