% The centroids of the two triangles of every other midpoint of a hexagon are one point, so there is no segment
% between them and no ratio over it. Impossible.
point A
point B
point C
point D
point E
point F
midpoint K A B
midpoint L B C
midpoint M C D
midpoint N D E
midpoint P E F
midpoint Q F A
centroid G K M P
centroid H L N Q
prove { equal { sratio A B G H } { 1 } }
