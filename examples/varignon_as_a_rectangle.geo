% The midpoints of the sides of a quadrilateral need not make a rectangle. False. Counterexample: A = (0, 0), B = (4,
% 0), C = (4, 2), D = (2, 2): K = (2, 0), L = (4, 1), M = (3, 2), and KL LM as vectors is -1.
point A
point B
point C
point D
midpoint K A B
midpoint L B C
midpoint M C D
prove { perpendicular K L L M }
