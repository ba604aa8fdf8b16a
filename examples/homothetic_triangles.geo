% Two triangles with parallel sides are in perspective: the lines that join corresponding corners meet in one point
% (classical; the affine form of Desargues' theorem). S is the centre; the third pair of sides is parallel.
point A
point B
point C
point S
online A1 S A
line a B C
line b C A
line c A B
parallel p A1 c
line u S B
intersec B1 p u
parallel q A1 b
line v S C
intersec C1 q v
prove { parallel B1 C1 B C }
