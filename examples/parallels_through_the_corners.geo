% Parallels through the corners of a triangle meet the opposite sides at D, E and F. The triangle DEF has twice the
% area of ABC (classical) and is turned the other way.
point A
point B
point C
online D B C
pratio U B A D 1
inter E B U C A
pratio V C A D 1
inter F C V A B
prove { equal { signed_area3 D E F } { mult { -2 } { signed_area3 A B C } } }
