% proved: the line from the orthocenter to a corner is perpendicular to the opposite side
point A
point B
point C
orthocenter H A B C
prove { perpendicular A H B C }
