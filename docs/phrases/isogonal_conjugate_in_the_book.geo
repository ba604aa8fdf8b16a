% spent: Q is the centre of the circle through the reflections of P; AQ and AP make equal angles with the sides
point A
point B
point C
point P
reflect X P B C
reflect Y P C A
reflect Z P A B
circumcenter Q X Y Z
prove { equal { mult { signed_area3 A B P } { pythagoras_difference3 Q A C } } { mult { signed_area3 A Q C } { pythagoras_difference3 B A P } } }
