% proved: the midpoints of segments from P to three points of a line are on one line
point A
point B
point P
online C A B
midpoint K P A
midpoint L P B
midpoint M P C
prove { collinear K L M }
