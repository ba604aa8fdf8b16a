% Isogonal conjugates (Mathieu, 1865): the centre Q of the circle through the reflections of P in the sides of a
% triangle is on the reflection of the line AP in the bisector at A. Here: AQ is perpendicular to the segment between
% two of the reflections.
point A
point B
point C
point P
reflect X P B C
reflect Y P C A
reflect Z P A B
circumcenter Q X Y Z
prove { perpendicular A Q Y Z }
