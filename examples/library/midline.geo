% The midline of a triangle: the line through the midpoints of two sides is parallel to the third (Euclid, Elements VI.2).
point A
point B
point C
midpoint M A B
midpoint N A C
prove { parallel M N B C }
