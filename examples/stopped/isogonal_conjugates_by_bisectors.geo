% Isogonal conjugates (John Mathieu, 1865): the centre Q of the circle through the reflections of P in the sides of a
% triangle, as the intersection of two perpendicular bisectors, is on the reflection of the line AP in the bisector at
% A.
point A
point B
point C
point P
reflect X P B C
reflect Y P C A
reflect Z P A B
med u X Y
med v X Z
intersec Q u v
prove { perpendicular A Q Y Z }
