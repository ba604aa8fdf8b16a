% The distance of the centroid from a line is the mean of the distances of the three corners (classical): distances
% are areas over UV.
point A
point B
point C
point U
point V
centroid G A B C
prove { equal { mult { 3 } { signed_area3 G U V } }
              { sum { sum { signed_area3 A U V } { signed_area3 B U V } } { signed_area3 C U V } } }
