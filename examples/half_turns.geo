% Half-turns (classical): after half-turns about three points, and about the same three again, each point is back.
point A
point B
point C
point P
symmetric Q P A
symmetric R Q B
symmetric S R C
symmetric T S A
symmetric U T B
symmetric V U C
prove { identical P V }
