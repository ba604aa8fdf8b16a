% Where M is the midpoint of AB, and C and D are on the line with MC MD = MA^2, the four points are harmonic (Newton's
% relation; classical). Here MC is r times MA.
point M
point A
symmetric B A M
param r
lratio C M A r
lratio D M A div { 1 } { r }
prove { harmonic A B C D }
