% proved: the same, the circle first, H by OH = OA + OB + OC
point O
point A
oncircle B O A
oncircle C O A
translate X O A B
translate H O C X
midpoint N O H
midpoint D B C
foot L A B C
prove { same_length N D N L }
