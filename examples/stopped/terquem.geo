% The circle through the feet D, E, F of three lines of a triangle through one point meets the sides again at the feet
% of three such lines (Olry Terquem, 1842).
point A
point B
point C
point P
inter D A P B C
inter E B P C A
inter F C P A B
circumcenter O D E F
second X D C O
second Y E A O
second Z F B O
inter S A X B Y
prove { collinear C Z S }
