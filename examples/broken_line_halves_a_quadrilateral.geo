% The midpoint M of the diagonal BD of a quadrilateral is joined to A and C. The broken line AMC halves the
% quadrilateral (classical): ABCM has the area of AMCD.
point A
point B
point C
point D
midpoint M B D
prove { equal { sum { signed_area3 A B M } { signed_area3 B C M } }
              { sum { signed_area3 A M D } { signed_area3 M C D } } }
