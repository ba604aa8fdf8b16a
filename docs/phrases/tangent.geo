% proved: where T is the middle of two points P and Q equally far from O, the line PT touches the circle around O through T
point O
point P
oncircle Q O P
midpoint T P Q
prove { perpendicular O T T P }
