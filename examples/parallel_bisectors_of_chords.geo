% The perpendicular bisectors of two opposite sides of a parallelogram do not meet. Impossible.
point A
point B
point C
translate D B C A
med m A B
med n C D
intersec X m n
prove { same_length X A X B }
