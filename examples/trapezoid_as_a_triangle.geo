% The side AB of a trapezoid is produced beyond B by the parallel side DC, up to E. The triangle AED has the area of
% the trapezoid (classical: half of the sum of the parallel sides times the height).
point A
point B
point D
param r
pratio C D A B r
translate E D C B
prove { equal { signed_area3 A E D } { sum { signed_area3 A B C } { signed_area3 A C D } } }
