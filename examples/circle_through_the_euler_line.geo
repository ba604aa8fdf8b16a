% There is no circle through circumcenter, centroid and orthocenter: they are on one line. Impossible.
point A
point B
point C
circumcenter O A B C
orthocenter H A B C
centroid G A B C
circumcenter U O G H
prove { same_length U O U H }
