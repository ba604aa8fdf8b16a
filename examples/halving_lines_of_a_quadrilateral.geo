% M and N are points of the sides AB and BC of a quadrilateral ABCD so that CM and AN halve its area. Then MN halves
% the diagonal BD (Canadian Mathematical Olympiad 2008, problem 1). With the area w = ABC + ACD, BM is w / (2 ABC)
% times BA, and BN as many times BC.
point A
point B
point C
point D
lratio M B A div { sum { signed_area3 A B C } { signed_area3 A C D } } { mult { 2 } { signed_area3 A B C } }
lratio N B C div { sum { signed_area3 A B C } { signed_area3 A C D } } { mult { 2 } { signed_area3 A B C } }
midpoint K B D
prove { collinear M N K }
