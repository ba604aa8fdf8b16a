% Varignon's theorem (Pierre Varignon, 1731): the midpoints of the sides of any quadrilateral make a parallelogram,
% for its diagonals have one midpoint.
point A
point B
point C
point D
midpoint K A B
midpoint L B C
midpoint M C D
midpoint N D A
midpoint U K M
midpoint V L N
prove { identical U V }
