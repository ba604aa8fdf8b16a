% Six triangles at the circumcenter (Asian Pacific Mathematics Olympiad 2013, problem 1): AD, BE and CF are the
% altitudes of a triangle with the circumcenter O. The segments from O to A, F, B, D, C and E cut the triangle into
% three pairs of triangles of equal areas. Here: OAE has the area of ODB.
point O
point A
oncircle B O A
oncircle C O A
foot D A B C
foot E B C A
prove { equal { signed_area3 O A E } { signed_area3 O D B } }
