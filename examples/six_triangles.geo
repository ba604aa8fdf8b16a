% The three medians of a triangle cut it into six triangles of the same area (classical). Here one of them.
point A
point B
point C
midpoint D B C
midpoint E C A
inter G A D B E
prove { equal { mult { 6 } { signed_area3 G B D } } { signed_area3 A B C } }
