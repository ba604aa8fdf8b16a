% The centroids of the triangles of three consecutive corners of any hexagon make a hexagon whose opposite sides are
% equal and parallel (classical).
point A
point B
point C
point D
point E
point F
centroid K A B C
centroid L B C D
centroid M C D E
centroid N D E F
centroid P E F A
translate X L K N
prove { identical X P }
