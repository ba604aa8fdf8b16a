% The feet of a point P and of its isogonal conjugate Q on the sides of a triangle are on one circle (Jakob Steiner,
% 1827). Q is the centre of the circle through the reflections of P.
point A
point B
point C
point P
reflect X P B C
reflect Y P C A
reflect Z P A B
circumcenter Q X Y Z
foot K P A B
foot L P C A
foot M Q A B
foot N Q C A
prove { concyclic K L M N }
