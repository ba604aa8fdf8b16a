% The altitudes of a triangle meet its circumcircle again at three points; each corner is the midpoint of the arc
% between two of them (classical). Here: the altitudes from N and L meet the circle again at B and C, the reflections
% of N and L in diameters parallel to the sides; M is as far from B as from C.
point O
point M
oncircle N O M
oncircle L O M
translate O1 L M O
translate O2 M N O
reflect B N O O1
reflect C L O O2
prove { same_length M B M C }
