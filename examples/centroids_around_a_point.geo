% A point P is joined to the corners of a quadrilateral. The centroids of the four triangles PAB, PBC, PCD and PDA
% make a quadrilateral of two ninths of the area (classical).
point A
point B
point C
point D
point P
centroid K P A B
centroid L P B C
centroid M P C D
centroid N P D A
prove { equal { mult { 9 } { sum { signed_area3 K L M } { signed_area3 K M N } } }
              { mult { 2 } { sum { signed_area3 A B C } { signed_area3 A C D } } } }
