% Two circles around O and P meet at A. A line through A meets them again at B and C: the midpoint of BC is on the
% circle through A around the midpoint of the centres (classical).
point O
point P
point A
point U
second B A U O
second C A U P
midpoint M B C
translate A1 A O P
prove { perpendicular A M M A1 }
