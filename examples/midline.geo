% The midline of a triangle (Euclid, Elements VI.2): the segment between the midpoints of two sides is parallel to the
% third side and half as long.
point A
point B
point C
midpoint M A B
midpoint N A C
prove { equal { sratio M N B C } { div { 1 } { 2 } } }
