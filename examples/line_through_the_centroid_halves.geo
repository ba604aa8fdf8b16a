% Only three of the lines through the centroid halve a triangle: the medians. False. Counterexample: A = (0, 0), B =
% (3, 0), C = (0, 3) and the parallel to BC through the centroid (1, 1), which meets AB at E = (2, 0) and AC at F =
% (0, 2): AEF has the area 2, and ABC has 9/2.
point A
point B
point C
centroid G A B C
online E A B
inter F E G A C
prove { equal { mult { 2 } { signed_area3 A E F } } { signed_area3 A B C } }
