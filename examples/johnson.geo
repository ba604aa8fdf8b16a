% Johnson's theorem (Roger Johnson, 1916): three equal circles pass through one point P and cut each other again at
% A, B and C. Then P is the orthocenter of the triangle ABC.
point P
point L
oncircle M P L
oncircle N P L
cc A M N P
cc B N L P
cc C L M P
prove { perpendicular P A B C }
