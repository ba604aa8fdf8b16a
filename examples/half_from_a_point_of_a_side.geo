% D is a point of the side BC of a triangle and M its midpoint. The parallel to AD through M meets AB at E. Then DE
% halves the triangle: BDE has half of the area (Euclid, On Divisions, 3).
point A
point B
point C
online D B C
midpoint M B C
pratio T M A D 1
inter E M T A B
prove { equal { mult { 2 } { signed_area3 B D E } } { signed_area3 B C A } }
