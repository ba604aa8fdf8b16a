% Parallels to the sides of a triangle through the corners make a triangle whose sides have the corners as midpoints
% (classical).
point A
point B
point C
line a B C
line b C A
line c A B
parallel p A a
parallel q B b
parallel r C c
intersec X q r
intersec Y r p
prove { midpoint C X Y }
