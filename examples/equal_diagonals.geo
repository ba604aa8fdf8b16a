% Where the diagonals of a quadrilateral are equal, the segments between the midpoints of opposite sides are
% perpendicular (classical). The equal diagonals: D is reflected from B1, where B1 has AC as its distance from B.
point A
point B
point C
point U
translate B1 A C B
reflect D B1 B U
midpoint K A B
midpoint L B C
midpoint M C D
midpoint N D A
prove { perpendicular K M L N }
