% The common chord of two circles is perpendicular to the line of their centres (classical).
point O
point P
point A
cc X O P A
prove { perpendicular A X O P }
