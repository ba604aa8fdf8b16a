% The midpoint M of the leg BC of a trapezoid with the parallel sides AB and CD is joined to A and D. The triangle AMD
% has half of the area of the trapezoid (classical). DC is r times AB.
point A
point B
point D
param r
pratio C D A B r
midpoint M B C
prove { equal { mult { 2 } { signed_area3 A M D } } { sum { signed_area3 A B C } { signed_area3 A C D } } }
