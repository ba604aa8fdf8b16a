% spent: the orthocenters of the four triangles of four lines are on one line
point A
point B
point C
online D B C
online E C A
inter F A B D E
orthocenter H A B C
orthocenter K A E F
orthocenter L B D F
prove { collinear H K L }
