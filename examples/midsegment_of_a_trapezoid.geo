% The segment between the midpoints of the legs of a trapezoid is half of the sum of the parallel sides, and that
% between the midpoints of the diagonals half of their difference (classical). Here the first.
point A
point B
point D
param r
pratio C D A B r
midpoint M A D
midpoint N B C
prove { equal { mult { 2 } { sratio M N A B } } { sum { 1 } { sratio D C A B } } }
