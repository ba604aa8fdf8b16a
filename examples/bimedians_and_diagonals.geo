% The segments between the midpoints of opposite sides of a quadrilateral have squares that add up to half of the sum
% of the squares of the diagonals (classical).
point A
point B
point C
point D
midpoint K A B
midpoint L B C
midpoint M C D
midpoint N D A
prove { equal { mult { 2 } { sum { pythagoras_difference3 K M K } { pythagoras_difference3 L N L } } }
              { sum { pythagoras_difference3 A C A } { pythagoras_difference3 B D B } } }
