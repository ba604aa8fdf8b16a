% The midpoints of the sides of any hexagon make two triangles, of every other one; they have the same centroid
% (classical).
point A
point B
point C
point D
point E
point F
midpoint K A B
midpoint L B C
midpoint M C D
midpoint N D E
midpoint P E F
midpoint Q F A
centroid G K M P
centroid H L N Q
prove { identical G H }
