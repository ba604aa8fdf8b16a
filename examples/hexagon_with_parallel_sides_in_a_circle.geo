% Where two pairs of opposite sides of a hexagon in a circle are parallel, so are the sides of the third pair
% (classical; Pascal's theorem with a line at infinity). AB and DE are parallel, for E is the reflection of D in the
% perpendicular bisector of AB; so are BC and EF. Here CD and FA.
point O
point A
oncircle B O A
oncircle C O A
oncircle D O A
midpoint M A B
midpoint N B C
reflect E D O M
reflect F E O N
prove { parallel C D F A }
