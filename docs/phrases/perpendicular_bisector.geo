% proved: the perpendicular bisectors of two sides meet on that of the third
point A
point B
point C
med m A B
med n A C
intersec O m n
midpoint M B C
prove { perpendicular O M B C }
