% The bisectors of two neighbouring angles of a parallelogram are perpendicular (classical). AU bisects the angle at A
% of the parallelogram ABCD. The perpendicular to AU through B bisects the angle at B: it takes A to a point A1 of the
% line BC.
point A
point U
point V
reflect W V A U
param p
param k
lratio B A V p
lratio D A W k
translate C A B D
tratio T A U 1
translate S A T B
reflect A1 A B S
prove { collinear B C A1 }
