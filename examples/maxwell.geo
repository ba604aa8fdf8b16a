% Maxwell's theorem (James Clerk Maxwell, 1864): the sides of a triangle XYZ are parallel to the lines PA, PB, PC from
% a point P to the corners of a triangle ABC. Then the parallels through X, Y and Z to the sides of ABC meet in one
% point.
point A
point B
point C
point P
point X
param r
pratio Z X P B r
line a P A
line c P C
parallel z X c
parallel x Z a
intersec Y z x
line d B C
line e C A
parallel u X d
parallel v Y e
intersec W u v
prove { parallel W Z A B }
