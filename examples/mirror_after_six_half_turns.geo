% After half-turns about three points, and about the same three again, a point is back, so there is no perpendicular
% bisector between it and its image. Impossible.
point A
point B
point C
point P
symmetric Q P A
symmetric R Q B
symmetric S R C
symmetric T S A
symmetric U T B
symmetric V U C
med m P V
line l A B
intersec X l m
prove { same_length X P X V }
