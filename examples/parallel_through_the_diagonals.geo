% In a trapezoid the parallel to the parallel sides through the intersection of the diagonals is bisected there
% (classical; its half is half of the harmonic mean of the parallel sides).
point A
point B
point D
param r
pratio C D A B r
line e A B
inter P A C B D
parallel f P e
line g A D
line h B C
intersec X f g
intersec Y f h
prove { midpoint P X Y }
