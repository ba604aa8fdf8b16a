% proved: the common chord is perpendicular to the line of the centres
point O
point P
point A
cc X O P A
prove { perpendicular A X O P }
