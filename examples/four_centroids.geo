% The centroids of the four triangles of a quadrilateral make a quadrilateral a third as long, turned by half a turn
% (classical).
point A
point B
point C
point D
centroid K B C D
centroid L C D A
prove { equal { mult { 3 } { sratio K L B A } } { 1 } }
