% The de Longchamps point (Gaston de Longchamps, 1886): the reflection of the orthocenter in the circumcenter is the
% orthocenter of the anticomplementary triangle, whose sides pass through A, B and C parallel to BC, CA and AB. Its
% corner opposite to A is A1.
point A
point B
point C
circumcenter O A B C
translate A1 A B C
translate K O A B
translate H O K C
symmetric L H O
prove { perpendicular A1 L B C }
