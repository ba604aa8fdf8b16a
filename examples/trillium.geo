% The midpoint of an arc of the circumcircle has the same distance from the two corners beside it and from the
% incenter (the trillium theorem; Jules Mention, 19th century). M and N are the midpoints of the arcs BC and CA, so C
% is the reflection of B in OM, and A that of C in ON. The point I of the bisector BN with MI = MB is on the bisector
% AM.
point O
point B
oncircle M O B
oncircle N O B
reflect C B O M
reflect A C O N
second I B N M
prove { collinear A I M }
