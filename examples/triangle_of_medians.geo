% The three medians of a triangle are the sides of a triangle of three quarters of its area (classical). The median BE
% is laid off at D, the end of AD.
point A
point B
point C
midpoint D B C
midpoint E C A
translate X B E D
prove { equal { mult { 4 } { signed_area3 A D X } } { mult { 3 } { signed_area3 A B C } } }
