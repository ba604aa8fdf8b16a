% Parallels to two sides of a triangle through a point D of the third make a parallelogram with the corner A. Its centre is on the
% line through the midpoints of the two sides, wherever D is (classical: a locus of school books).
point A
point B
point C
online D B C
translate P A C D
inter E A B D P
translate Q A B D
inter F A C D Q
midpoint M E F
midpoint K A B
midpoint L A C
prove { collinear K L M }
