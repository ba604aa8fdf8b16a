% spent, proved with the most steps: the middle N of OH is as far from the midpoint of a side as from the foot of its altitude
point A
point B
point C
circumcenter O A B C
orthocenter H A B C
midpoint N O H
midpoint D B C
foot L A B C
prove { same_length N D N L }
