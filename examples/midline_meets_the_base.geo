% The line through the midpoints of two sides of a triangle does not meet the third side. Impossible.
point A
point B
point C
midpoint M A B
midpoint N A C
inter X M N B C
prove { collinear B C X }
