% The centroids of the four triangles of a cyclic quadrilateral are on one circle, of a third of the radius
% (classical).
point O
point A
oncircle B O A
oncircle C O A
oncircle D O A
centroid K B C D
centroid L C D A
centroid M D A B
centroid N A B C
prove { concyclic K L M N }
