% The lines through the ends of parallel radii of two circles meet on the line of the centres (classical). The radii
% PB and PD are r times OA and OC.
point O
point P
point A
oncircle C O A
param r
pratio B P O A r
pratio D P O C r
inter X A B C D
prove { collinear X O P }
