% A chord as long as two segments (International Mathematical Olympiad 1997, problem 2): a triangle ABC has the
% circumcircle around O; the line AU meets the circle again at U, and the perpendicular bisectors of AB and AC at V
% and W. The lines BV and CW meet at T. Then AU = TB + TC: BV meets the circle again at X, with BX = AU by reflection
% in OV, and here TX = TC.
point O
point A
oncircle B O A
oncircle C O A
oncircle U O A
midpoint M A B
midpoint N A C
inter V O M A U
inter W O N A U
inter T B V C W
reflect X U O V
prove { same_length T X T C }
