% The midpoint of the segment between the midpoints of two opposite sides of a quadrilateral is on its diagonals only
% in special cases, as in a parallelogram. False. Counterexample: A = (0, 0), B = (4, 0), C = (4, 4), D = (0, 2): G =
% (2, 3/2).
point A
point B
point C
point D
midpoint K A B
midpoint M C D
midpoint G K M
prove { collinear A G C }
