% The midpoints of four sides of a pentagon are joined, first and third, second and fourth; the segment between the
% midpoints of the two joins is a quarter of the fifth side, and parallel to it (classical).
point A
point B
point C
point D
point E
midpoint K A B
midpoint L B C
midpoint M C D
midpoint N D E
midpoint X K M
midpoint Y L N
prove { equal { mult { 4 } { sratio X Y A E } } { 1 } }
