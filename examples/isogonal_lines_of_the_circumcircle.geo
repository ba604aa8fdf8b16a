% The reflections of the lines from the corners of a triangle to a point P of its circumcircle in the bisectors are
% parallel (classical; the isogonal conjugate of P is at infinity). The reflection of AP meets the circle again at the
% mirror image P1 of P in the perpendicular bisector of BC, and that of BP at P2 in the same way. Here: AP1 and BP2.
point O
point A
oncircle B O A
oncircle C O A
oncircle P O A
midpoint K B C
midpoint L C A
reflect P1 P O K
reflect P2 P O L
prove { parallel A P1 B P2 }
