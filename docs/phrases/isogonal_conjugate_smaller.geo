% proved: the reflections Y and Z of P are equally far from A, so AQ is perpendicular to YZ
point A
point B
point C
point P
reflect X P B C
reflect Y P C A
reflect Z P A B
circumcenter Q X Y Z
prove { perpendicular A Q Y Z }
