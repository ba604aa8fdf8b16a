% A chord as long as two segments (International Mathematical Olympiad 1997, problem 2): a triangle ABC has the
% circumcircle around O; the line AU meets the circle again at U, and the perpendicular bisectors of AB and AC at V
% and W. The lines BV and CW meet at T. Then AU = TB + TC: BV meets the circle again at X, with BX = AU by reflection
% in OV, and TX = TC. Here: T is on the line from O to the midpoint Z of XC. The figure begins with A and U; B and C
% are the reflections of A in OV and OW.
point A
point U
midpoint H A U
param h
tratio O H U h
online V A U
online W A U
reflect B A O V
reflect C A O W
inter T B V C W
reflect X U O V
midpoint Z C X
prove { collinear O T Z }
