% Three corners of a triangle and its orthocenter make four triangles with equal circumcircles (classical). Here: the
% reflection U of the circumcenter O in the line BC is the centre of a circle through B, C and the orthocenter H,
% which is made from O by vectors; its radius is OA.
point O
point A
oncircle B O A
oncircle C O A
translate K O A B
translate H O K C
reflect U O B C
prove { same_length U H O A }
