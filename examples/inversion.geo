% Inversion in a circle (19th century): it takes a circle through the centre to a line. A is opposite to O on the circle, P
% its inverse; the inverse of each other point X of the circle is on the line through P perpendicular to OA.
point O
point R
point A
midpoint M O A
oncircle X M O
inverse P A O R
inverse Q X O R
prove { perpendicular P Q O A }
