% A median of a triangle is perpendicular to its side only where the triangle is isosceles. False. Counterexample: A =
% (0, 0), B = (4, 0), C = (0, 2), M = (2, 1): AM BC as vectors is -6.
point A
point B
point C
midpoint M B C
prove { perpendicular A M B C }
