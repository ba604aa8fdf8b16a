% Two circles around O and P meet at A and X. The points opposite to A on both are on one line with X (classical).
point O
point P
point A
cc X O P A
symmetric B A O
symmetric C A P
prove { collinear B X C }
